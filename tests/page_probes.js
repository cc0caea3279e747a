// Probes that tests ask of a page, which does not know of them. Chromium loads them in each page before its own
// script, the others with each question. tests/browser.py calls `probes.NAME(words)`; the result is plain data.
"use strict";

const probes = (() => {
  const one = (selector) => document.querySelector(selector);
  const all = (selector, root = document) => [...root.querySelectorAll(selector)];

  const isShown = (element) => Boolean(element) && getComputedStyle(element).display !== "none"
    && getComputedStyle(element).visibility === "visible";

  const middleOf = (element) => {
    const box = element.getBoundingClientRect();
    return [box.left + box.width / 2, box.top + box.height / 2];
  };

  const paper = () => getComputedStyle(document.body).backgroundColor;
  const digits = (text) => text.replace(/\D/g, "");

  /** Name, mark, and whether it is filled, of each visible node of a picture. */
  const nodesOf = (graph) => all(".nodes > g", graph).filter(isShown).map((group) => {
    const mark = group.querySelector(".mark");
    return [
      Number(group.querySelector(".name").textContent), isShown(mark) ? mark.textContent : "",
      getComputedStyle(group.querySelector(".body")).fill !== paper()
    ];
  });

  /** A number from 0 that a seed draws (Park and Miller, 1988). */
  const drawer = (seed) => {
    let state = seed;
    return (most) => (state = (state * 48271) % 2147483647) % most;
  };

  return {
    // single things
    text: (selector) => one(selector)?.textContent ?? null,
    textStart: (selector, length) => one(selector).textContent.slice(0, length),
    texts: (...selectors) => selectors.map((selector) => one(selector).textContent),
    value: (selector) => one(selector).value,
    setValue: (selector, value) => void (one(selector).value = value),
    attribute: (selector, name) => one(selector)?.getAttribute(name) ?? null,
    press: (selector) => one(selector).click(),
    isPressable: (selector) =>
      isShown(one(selector)) && one(selector).getClientRects().length > 0 && !one(selector).disabled,
    focus: (selector) => one(selector).focus(),
    blur: () => document.activeElement.blur(),
    active: () => document.activeElement.id,
    isHidden: (selector) => one(selector).hidden,
    isDisabled: (selector) => one(selector).disabled,
    style: (selector, name) => getComputedStyle(one(selector)).getPropertyValue(name),
    count: (selector) => all(selector).length,
    classes: (selector) => all(selector).map((element) => element.className),
    heights: (...selectors) => selectors.map((selector) => one(selector).clientHeight),
    validity: (selector) => one(selector).validationMessage,
    title: () => document.title,
    fetched: () => performance.getEntriesByType("resource").map(({ name }) => name),
    told: (name) => document.documentElement.dataset[name] ?? null,
    address: () => location.hash,
    forgetAll: () => sessionStorage.clear(),
    goTo: (hash) => void (location.hash = hash),
    entry: () => document.body.dataset.entry,
    historyLength: () => history.length,
    widest: () => document.documentElement.scrollWidth,
    top: () => scrollTo(0, 0),
    show: (selector, block = "nearest") => one(selector).scrollIntoView({ block }),
    place: (selector, at = 0) => middleOf(all(selector)[at]),
    width: (selector) => one(selector).clientWidth,

    /** Sets a field and informs the page, like a person who leaves the field. */
    choose: (selector, value) => {
      one(selector).value = value;
      one(selector).dispatchEvent(new Event("change", { bubbles: true }));
    },

    /** The bottom of an element is not below the top of another. */
    isAbove: (upper, lower) => one(upper).getBoundingClientRect().bottom <= one(lower).getBoundingClientRect().top + 1,
    tops: (selector) => all(selector).map((part) => Math.round(part.getBoundingClientRect().top)),

    /** Whether something lies in the window, and nothing covers it. */
    isSeen: (selector) => {
      const [x, y] = middleOf(one(selector));
      return one(selector).contains(document.elementFromPoint(x, y));
    },

    /** Visible pictures and signs without a name for a screen reader. */
    nameless: () => all("svg, img, canvas, [role=img]")
                      .filter(
                        (it) => it.getClientRects().length > 0 && !it.closest("[aria-hidden=true]")
                          && !it.getAttribute("aria-label") && !it.getAttribute("alt"))
                      .map((it) => it.outerHTML.slice(0, 120)),

    // pages that play transcripts
    card: () => {
      if (one("#card").hidden) {
        return null;
      }
      const rows = all("#card-rows > div").map((row) => [row.children[0].textContent, row.children[1].textContent]);
      return [one("#card-heading").textContent, one("#card-rule").textContent, Object.fromEntries(rows)];
    },

    /** The share of the drawing's width and height that its nodes take. */
    shares: () => {
      const box = one("#graph").getBoundingClientRect();
      const nodes = all(".nodes .body").map((node) => node.getBoundingClientRect());
      const most = (key) => Math.max(...nodes.map((node) => node[key]));
      const least = (key) => Math.min(...nodes.map((node) => node[key]));
      return [(most("right") - least("left")) / box.width, (most("bottom") - least("top")) / box.height];
    },

    /** The parts of the entry and the figures that something else covers. */
    covered: () => all("#entry p, #figures dd")
                     .filter((part) => part.getClientRects().length > 0)
                     .filter((part) => document.elementFromPoint(...middleOf(part)) !== part)
                     .map((part) => part.id),

    /**
     * Numbers of four digits and more without commas, and other signs between digits; a transcript's own
     * lines are left out.
     */
    ungrouped: () =>
      all("body *:not(script, style, #event, #reply, #near *, #judged)")
        .flatMap((part) => [...part.childNodes].filter((node) => node.nodeType === 3).map((node) => node.data))
        .filter((text) => /\d{4}|\d[\u202f\u2009 ]\d/.test(text)),

    /** Whether the drawing that an element belongs to takes room in the page. */
    isLaidOut: (selector) => one(selector).ownerSVGElement.getClientRects().length > 0,

    viewBox: (selector = "#graph") => one(selector).getAttribute("viewBox").split(" ").map(Number),
    pathLengths: () => ["line", "range"].map(
      (kind) => all(`#budget .${kind}`).map((path) => path.getAttribute("d").split(/[LHV]/).length)),

    slide: (number) => {
      one("#slider").value = number;
      one("#slider").dispatchEvent(new Event("input", { bubbles: true }));
    },

    type: (number) => {
      probes.choose("#go", number);
      one("#go").blur();
    },

    /** The places of the plot's first and last entry, and its vertical middle. */
    plot: () => {
      const [plot, cursor] = [one("#budget"), one("#budget .cursor")];
      plot.scrollIntoView();
      const box = plot.getBoundingClientRect();
      const at = () => Number(cursor.getAttribute("x1"));
      one("#first").click();
      const first = at();
      one("#last").click();
      return [box.left + first, box.left + at(), box.top + box.height / 2];
    },

    ended: () => new Promise((done) => {
      const ask = () =>
        (one("#play").textContent.includes("play") ? done(document.body.dataset.entry) : setTimeout(ask, 20));
      ask();
    }),

    /**
     * What a reader of a played transcript sees, by styles and places, not by names: filled nodes, widths of
     * lines, ends of arrows.
     */
    played: () => {
      const graph = one("#graph");
      const drawn = isShown(graph);
      const groups = drawn ? all(".nodes > g", graph).filter(isShown) : [];
      const nameOf = (group) => Number(group.querySelector(".name").textContent);
      const places = groups.map((group) => {
        const { e, f } = group.transform.baseVal.getItem(0).matrix;
        return [nameOf(group), e, f];
      });
      const at = (x, y) => places.reduce((best, [name, px, py]) => {
        const far = Math.hypot(px - x, py - y);
        return far < best[1] ? [name, far] : best;
      }, [0, 30])[0];
      const ends =
        (line) => [at(line.x1.baseVal.value, line.y1.baseVal.value), at(line.x2.baseVal.value, line.y2.baseVal.value)];
      const lines = (where) => (drawn ? all(where, graph).filter(isShown) : []);
      const text = (id) => one(`#${id}`).textContent;
      return {
        drawn,
        nodes: drawn ? nodesOf(graph) : [],
        edges: lines(".edges > line:not(.change), .pairs > line")
                 .map((line) => [...ends(line), parseFloat(getComputedStyle(line).strokeWidth)]),
        arrows: lines(".pointers > line").filter((line) => getComputedStyle(line).markerEnd !== "none").map(ends),
        lit: groups.filter((group) => isShown(group.querySelector(".halo"))).map(nameOf),
        status:
          ["nodes", "edges", "pairs", "enabled", "charge", "spent"].map((id) => `${id}=${digits(text(id))}`).join(" "),
        number: text("number").replaceAll(",", ""),
        event: text("event"),
        reply: text("reply"),
        kind: text("kind"),
        change: lines(".changes > text").map((sign) => sign.textContent).join(""),
        said: text("undrawn"),
        left: digits(text("left")),
        bound: digits(text("bound")),
        rounds: `${text("rounds")} ${text("most-rounds")}`,
      };
    },

    // the playground
    script: () => one("#text").value.trimEnd().split("\n"),

    /** How many pixels lie between the end of an element and the beginning of one below it. */
    gap: (upper, lower) => one(lower).getBoundingClientRect().top - one(upper).getBoundingClientRect().bottom,

    /** Whether an element has a scroll bar from top to bottom. */
    scrolls: (selector) => one(selector).scrollHeight > one(selector).clientHeight,

    says: (selector, part) => one(selector).textContent.includes(part),

    /** The lines of the script that a hand made: no moves of a daemon, and no links. */
    acts: () => probes.script().filter((line) => !/^(drive|link) /.test(line)),
    scriptLength: () => probes.script().length,

    /** The present script: the field shows it a while later. */
    scriptNow: () => {
      one("#show-script").click();
      return probes.script();
    },
    ids: (selector) => all(selector).map((element) => element.id),
    lastLine: () => probes.script().at(-1),
    lastAct: () => probes.acts().at(-1) ?? null,

    transcript: () => {
      one("#show-transcript").click();
      const text = one("#text").value;
      one("#show-script").click();
      return text;
    },

    lastEntry: () => probes.transcript().trimEnd().split("\n").at(-1),
    isStable: () => all(".state").every((state) => state.textContent.includes("stable")),
    isRunning: () => one("#run").getAttribute("aria-pressed") === "true",
    /**
     * The heights in pixels of the smallest name and the least node of the picture; a name that is not drawn
     * has 0.
     */
    nameSize: () => Math.min(...all(".graph .node:not(.absent) .name")
                               .map((name) => (isShown(name) ? name.getBoundingClientRect().height : 0))),
    nodeSizes: () => {
      const sizes = all(".graph .node:not(.absent) .body").map((body) => body.getBoundingClientRect().width);
      return [Math.min(...sizes), Math.max(...sizes)];
    },
    present: () => all(".graph .node:not(.absent)").length,

    /** The drawn network, by styles: nodes that are filled, edges with their widths, arrows, marks. */
    lab: (which) => {
      const graph = document.getElementById(which);
      const edges =
        all("[data-ends]", graph)
          .filter(isShown)
          .map(
            (line) =>
              [...line.dataset.ends.split("-").map(Number), parseFloat(getComputedStyle(line).strokeWidth) > 4]);
      const arrows =
        all(".pointers > line", graph).filter(isShown).map((line) => line.dataset.pointer.split(">").map(Number));
      const numbers = graph.closest(".pane")
                        .querySelector(".numbers")
                        .textContent.replace("silent", "0")
                        .match(/[\d,]+/g)
                        .map((word) => Number(word.replaceAll(",", "")));
      return {
        nodes: nodesOf(graph),
        edges: edges.sort((a, b) => a[0] - b[0] || a[1] - b[1]),
        arrows: arrows.sort((a, b) => a[0] - b[0]),
        numbers
      };
    },

    /**
     * The nodes of a picture with a visible part round them: a halo, or the ring of those that may still
     * move.
     */
    ringed: (part, which) => all(".nodes > g", document.getElementById(which))
                               .filter((group) => isShown(group) && isShown(group.querySelector(`.${part}`)))
                               .map((group) => Number(group.querySelector(".name").textContent)),

    /** The filled shares of the bar, and its width. */
    bar: () => {
      const [bar, ...parts] = [".meter .bar", ".meter .bar .spent", ".meter .bar .left"].map(
        (selector) => one(selector).getBoundingClientRect().width);
      return [bar, ...parts];
    },

    /** An empty place of the picture, as far from everything as possible. */
    emptyPlace: () => {
      const box = one(".graph").getBoundingClientRect();
      const nodes = all(".graph .node:not(.absent) .body").map((node) => node.getBoundingClientRect());
      const points = all("[data-ends]").filter(isShown).flatMap((line) => {
        const [from, to] = [1, 2].map(
          (end) => new DOMPoint(line[`x${end}`].baseVal.value, line[`y${end}`].baseVal.value)
                     .matrixTransform(line.getScreenCTM()));
        return Array.from(
          { length: 60 },
          (_, at) => (
            { x: from.x + ((to.x - from.x) * at) / 59, y: from.y + ((to.y - from.y) * at) / 59, width: 0, height: 0 }));
      });
      let best = [0, 0, 0];
      for (let at = 0; at < 900; at += 1) {
        const [x, y] = [
          box.left + 70 + ((box.width - 140) * (at % 30)) / 29,
          box.top + 70 + ((box.height - 140) * Math.floor(at / 30)) / 29
        ];
        const far = [...nodes, ...points].reduce(
          (least, it) => Math.min(least, Math.hypot(it.x + it.width / 2 - x, it.y + it.height / 2 - y)), 1e9);
        if (far > best[2] && document.elementFromPoint(x, y)?.closest(".graph")) {
          best = [x, y, far];
        }
      }
      return best;
    },

    /** How many pictures a second the browser makes, and how many of them show moves. */
    frames: () => new Promise((done) => {
      const begun = performance.now();
      let [frames, moved, last] = [0, 0, ""];
      const look = () => {
        frames += 1;
        const now = one(".numbers").textContent;
        moved += now === last ? 0 : 1;
        last = now;
        const spent = performance.now() - begun;
        if (spent < 3000) {
          requestAnimationFrame(look);
        } else {
          done([(1000 * frames) / spent, (1000 * moved) / spent]);
        }
      };
      requestAnimationFrame(look);
    }),

    /**
     * How many pictures a second the browser makes of a copy of the drawing, over the page, in which twenty nodes
     * change each time.
     */
    repaints: () => new Promise((done) => {
      const box = one(".graph").getBoundingClientRect();
      const copy = one(".graph").cloneNode(true);
      const place = { left: box.left, top: box.top, width: box.width, height: box.height };
      for (const [key, value] of Object.entries(place)) {
        copy.style[key] = `${value}px`;
      }
      Object.assign(copy.style, { position: "fixed", margin: "0", background: "white" });
      document.body.append(copy);
      const bodies = [...copy.querySelectorAll(".body")];
      const begun = performance.now();
      let frames = 0;
      const paint = () => {
        for (let at = 0; at < 20; at += 1) {
          bodies[(37 * (frames + 25 * at)) % bodies.length].style.fill = `hsl(${60 * frames} 50% 50%)`;
        }
        frames += 1;
        const spent = performance.now() - begun;
        if (spent < 2000) {
          requestAnimationFrame(paint);
        } else {
          copy.remove();
          done((1000 * frames) / spent);
        }
      };
      requestAnimationFrame(paint);
    }),

    /** Types a text in place of the script. */
    write: (text) => {
      one("#show-script").click();
      one("#text").value = text;
      one("#text").dispatchEvent(new Event("input", { bubbles: true }));
    },

    paste: (text) => {
      const data = new DataTransfer();
      data.setData("text/plain", text);
      document.activeElement.dispatchEvent(
        new ClipboardEvent("paste", { clipboardData: data, bubbles: true, cancelable: true }));
    },

    /** Chooses a file with a transcript of so many questions. */
    openLong: (name, entries) => {
      const lines = Array.from({ length: entries }, (_, at) => `${at + 1} show 1 = -\n`);
      probes.openFile(name, `matching hh 2\n${lines.join("")}`);
    },

    /** Whether the page has kept a part: the network or the transcript. */
    keeps: (part) => Boolean(JSON.parse(sessionStorage.getItem(`rudekpi ${location.pathname}`) ?? "{}")[part]),

    /** Chooses a file with this text. */
    openFile: (name, text) => {
      const data = new DataTransfer();
      data.items.add(new File([text], name));
      one("#open").files = data.files;
      one("#open").dispatchEvent(new Event("change", { bubbles: true }));
    },

    /** Whether the page asks before it is left, as if this many milliseconds had passed. */
    asksToLeave: (later) => {
      const now = performance.now.bind(performance);
      performance.now = () => now() + later;
      const event = new Event("beforeunload", { cancelable: true });
      dispatchEvent(event);
      performance.now = now;
      return event.defaultPrevented;
    },

    selected: (selector) => one(selector).value.slice(one(selector).selectionStart, one(selector).selectionEnd),

    /** What a hand may touch: the middle of each visible control, with its description. */
    controls: (seed, count) => {
      const next = drawer(seed);
      const seen =
        all(
          "button:not(:disabled), select, summary, input:not([type=file]), .graph .node:not(.absent) .body, [data-ends]:not(.absent)")
          .filter((it) => it.getClientRects().length > 0 && it.id !== "project")
          .map((it) => ({
                 what: it.id || it.dataset.tool || it.dataset.ends || it.parentElement?.dataset.node || it.localName,
                 kind: it.localName
               }));
      return Array.from({ length: count }, () => seen[next(seen.length)]);
    },
  };
})();
