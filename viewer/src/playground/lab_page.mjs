// The playground's controls, and its first network: the one before a reload, the address's script, or a small
// one.
import {LAB_KEYS, listen} from "../keys.mjs";
import {counted} from "../numbers.mjs";
import {useNames} from "../own_names.mjs";
import {listenToSaving} from "../picture.mjs";
import {Damaged} from "../rudekpi/errors.mjs";
import {byId, field} from "../svg.mjs";
import {Playground} from "./playground.mjs";
import {MOST_NODES, PRESETS, presetOf} from "./presets.mjs";
import {readAddress} from "./sharing.mjs";
import {isTold, SPARE, sourceOf, sourceOfEnd, tryOut} from "./sources.mjs";
import {TOOLS} from "./tools.mjs";

const NEARER = 1.4;
// how many units a key moves a node
const STRIDE = 12;
// the selectors' value for a network that is no preset
const OWN = "own";

/** @typedef {import("./keeping.mjs").KeptLab} KeptLab */
/** @typedef {import("./sources.mjs").Source} Source */
/** @typedef {import("./tools.mjs").ToolName} ToolName */

function isCalm() {
  return matchMedia("(prefers-reduced-motion: reduce)").matches;
}

export class LabPage {
  /**
   * @param {import("../rudekpi/engine.mjs").Engine} engine
   * @param {(text: string) => void} judge
   * @param {(wrong: Wrong | null) => void} refuse
   */
  constructor(engine, judge, refuse) {
    this.play = new Playground(engine, judge);
    this.engine = engine;
    this.refuse = refuse;
    /**
     * The own names of the page's transcript, or null.
     * @type {string[][] | null}
     */
    this.names = null;
    /**
     * The source opened in place of a preset, or null.
     * @type {Source | null}
     */
    this.source = null;
    /** @type {AbortController | null} */
    this.ended = null;
    const presets = /** @type {HTMLSelectElement} */ (byId("preset"));
    for (const [kind, { name }] of Object.entries(PRESETS)) {
      presets.add(new Option(name, kind));
    }
    presets.add(new Option("", OWN));
    this.own = presets.options[presets.options.length - 1];
    this.own.hidden = true;
    this.listenToChoice();
    this.listenToMoves();
    this.play.work.listen();
  }

  listenToChoice() {
    field("preset").addEventListener("change", () => {
      if (field("preset").value === OWN) {
        return;
      }
      field("size").value = String(PRESETS[field("preset").value].nodes);
      this.openPreset();
    });
    ["size", "seed"].forEach((id) => field(id).addEventListener("change", () => this.openPreset()));
    field("rules").addEventListener(
      "change", () => (this.source ? this.openSource(this.source, this.rules) : this.openPreset()));
    field("which").addEventListener(
      "change", () => this.play.turnTo(this.play.labs.findIndex((lab) => lab.rules === field("which").value)));
    for (const button of toolButtons()) {
      button.addEventListener("click", () => this.take(/** @type {ToolName} */ (button.dataset.tool)));
    }
  }

  listenToMoves() {
    const { play } = this;
    byId("run").addEventListener("click", () => play.daemon.run(!play.daemon.runner.on));
    byId("step").addEventListener("click", () => play.daemon.stepNow());
    byId("scramble").addEventListener("click", () => play.daemon.scramble());
    byId("undo").addEventListener("click", () => play.undo());
    byId("redo").addEventListener("click", () => play.redo());
    field("daemon").addEventListener("change", () => this.showOdds());
    field("pace").addEventListener("change", () => (play.daemon.runner.speed = Number(field("pace").value)));
    /** @param {(zoom: import("../zoom.mjs").Zoom) => void} by */
    const zoom = (by) => play.panes.forEach((pane) => by(pane.zoom));
    byId("nearer").addEventListener("click", () => zoom((it) => it.by(NEARER)));
    byId("farther").addEventListener("click", () => zoom((it) => it.by(1 / NEARER)));
    byId("whole").addEventListener("click", () => zoom((it) => it.fit()));
    listenToSaving("lab-svg", "lab-png", () => ({
                                           svg: play.panes[play.at].svg,
                                           name: play.lab.fileName,
                                           title: `${play.lab.rules}: ${counted(play.lab.seen.present, "node")} after ${
                                             counted(play.lab.lines.length, "line")} of the script`,
                                         }));
  }

  /** @returns {Record<string, () => void>} */
  get actions() {
    const { play } = this;
    /** @param {string} id */
    const press = (id) => () => byId(id).click();
    /**
     * @param {number} dx
     * @param {number} dy
     */
    const shift = (dx, dy) => () => {
      const node = play.chooser.thing?.node;
      if (node) {
        play.settle(node, { x: play.layout.x[node] + dx, y: play.layout.y[node] + dy });
      }
    };
    return {
      run: press("run"),
      step: press("step"),
      undo: press("undo"),
      redo: press("redo"),
      scramble: press("scramble"),
      "zoom-in": press("nearer"),
      "zoom-out": press("farther"),
      "zoom-fit": press("whole"),
      ...Object.fromEntries(Object.keys(TOOLS).map((name) => [name, () => this.take(/** @type {ToolName} */ (name))])),
      join: () => play.tools.join(play.lab, null),
      "node-before": () => play.chooser.walk(play.lab.seen, -1),
      "node-behind": () => play.chooser.walk(play.lab.seen, 1),
      edge: () => play.chooser.turn(play.lab.seen),
      act: () => play.chooser.thing && play.tools.tap(play.lab, play.chooser.thing, null),
      "let-go": () => play.chooser.choose(null),
      left: shift(-STRIDE, 0),
      right: shift(STRIDE, 0),
      up: shift(0, -STRIDE),
      down: shift(0, STRIDE),
    };
  }

  /**
   * Shows the playground; goes on as it was left, or with the state kept before a reload.
   * @param {KeptLab | null} kept
   */
  enter(kept) {
    this.ended = new AbortController();
    this.nameNodes();
    this.showOdds();
    listen(this.actions, LAB_KEYS, this.ended.signal);
    addEventListener("hashchange", () => this.openAddress(), { signal: this.ended.signal });
    if (this.play.labs.length === 0) {
      this.take("cut");
      if (!kept || !this.restore(kept)) {
        this.openPreset();
        this.openAddress();
      }
    }
  }

  /** Shows the probability to the daemon that has one. */
  showOdds() {
    byId("odds").hidden = field("daemon").value !== "chance";
  }

  leave() {
    this.play.daemon.run(false);
    this.ended?.abort();
  }

  /** @param {ToolName} name */
  take(name) {
    this.play.tools.take(name);
    this.play.chooser.choose(null);
    document.body.dataset.tool = name;
    const finger = matchMedia("(pointer: coarse)").matches;
    byId("hint").textContent =
      finger ? TOOLS[name].hint.replace("Click", "Tap").replaceAll("click", "tap") : TOOLS[name].hint;
    toolButtons().forEach((button) => button.setAttribute("aria-pressed", String(button.dataset.tool === name)));
  }

  /** @returns {RuleName[]} */
  get rules() {
    const { value } = field("rules");
    return value === "both" ? ["hh", "manne"] : [/** @type {RuleName} */ (value)];
  }

  openPreset() {
    const wanted = Number(field("size").value);
    const nodes = Math.min(MOST_NODES, Math.max(2, Math.round(wanted) || 2));
    const network = presetOf(field("preset").value, nodes, Number(field("seed").value));
    const lines = network.links.map(([v, w]) => `link ${v} ${w}`);
    this.source = null;
    this.nameNodes();
    this.play.open(
      {...network, names: nodes + SPARE, present: nodes, labs: this.rules.map((rules) => ({ rules, lines })) });
    this.showChoice(nodes);
    this.sayChoice(wanted === nodes ? "" : `A network to begin with has 2 to ${MOST_NODES} nodes: here are ${nodes}.`);
    this.play.daemon.run(!isCalm());
  }

  /** The own names are those of the transcript that the network goes on from. */
  nameNodes(source = this.source) {
    useNames(source?.named ? this.names : null);
  }

  /** @param {number} nodes */
  showChoice(nodes) {
    const { source } = this;
    this.own.hidden = source === null;
    this.own.textContent = source?.title ?? "";
    if (source) {
      field("preset").value = OWN;
    }
    field("size").value = String(nodes);
    field("size").disabled = field("seed").disabled = source !== null;
    field("rules").disabled = Boolean(source?.start);
    byId("choice-rules").textContent = source?.start ? "It goes on by the rules of its transcript." : "";
    field("rules").value = this.play.labs.length > 1 ? "both" : this.play.lab.rules;
  }

  /** @param {string} said */
  sayChoice(said) {
    byId("choice-said").textContent = said;
    byId("choice-said").hidden = said === "";
  }

  /**
   * Opens a script or a graph under some rules. Throws `BadLine` and changes nothing if a line is bad.
   * @param {Source} source
   * @param {RuleName[]} rules
   * @param {Layout} [layout] the places of its nodes, if they are known
   */
  openSource(source, rules, layout) {
    this.nameNodes(source);
    try {
      this.play.open({...source, layout, labs: rules.map((name) => ({ rules: name, lines: source.lines })) });
      this.source = source;
    } finally {
      this.nameNodes();
    }
    this.showChoice(source.present);
    this.sayChoice("");
    this.play.daemon.run(false);
  }

  /**
   * Opens a text of a kind that `kindOf` returned. If it is bad, shows why and changes nothing.
   * @param {string} text
   * @param {string} name
   * @param {string} kind
   * @param {() => void} enter shows the playground, once the text is known to be good
   */
  openText(text, name, kind, enter) {
    try {
      const opened = sourceOf(text, name, kind, this.rules);
      tryOut(this.engine, opened);
      enter();
      this.openSource(opened.source, opened.rules);
      this.refuse(null);
      this.play.daemon.run(kind !== "script" && !isCalm());
      this.play.story.say(opened.said);
    } catch (wrong) {
      if (!isTold(wrong)) {
        throw wrong;
      }
      this.refuse(
        { said: `The ${kind} ${name === "" ? "" : `${name} `}is refused: ${wrong.message}.`, line: wrong.text ?? "" });
    }
  }

  /**
   * Goes on where a transcript ends. If the page can't, shows why and changes nothing. Throws `Damaged` if it
   * is no transcript.
   * @param {import("./sources.mjs").Played} played
   * @param {() => void} enter shows the playground, once the network is known
   */
  goOn(played, enter) {
    try {
      const opened = sourceOfEnd(this.engine, played);
      enter();
      const { layout } = played;
      const own = layout && {...layout, x: layout.x.slice(), y: layout.y.slice() };
      this.openSource(opened.source, opened.rules, own ?? undefined);
      this.refuse(null);
      this.play.story.say(opened.said);
      this.play.panes[0].svg.focus({ preventScroll: true });
    } catch (wrong) {
      if (!isTold(wrong) || wrong instanceof Damaged) {
        throw wrong;
      }
      this.refuse({ said: `The page can't go on from this transcript: ${wrong.message}.`, line: wrong.text ?? "" });
    }
  }

  openAddress() {
    try {
      const held = readAddress(location.hash);
      if (held !== null) {
        const { rules, names, present, lines } = held;
        this.openSource({ names, present, nodes: names, lines, title: "the script of a link" }, [rules]);
        this.refuse(null);
      }
    } catch (wrong) {
      if (!isTold(wrong)) {
        throw wrong;
      }
      this.refuse(
        { said: `The address holds no script that can be played: ${wrong.message}.`, line: wrong.text ?? "" });
    }
  }

  /** @returns {KeptLab} */
  get state() {
    const { layout, ...plan } = this.play.plan;
    const places = {...layout, x: [...layout.x], y: [...layout.y] };
    const { at, daemon: { seed: daemonSeed } } = this.play;
    return {
      plan,
      places,
      placeless: [...this.play.placeless],
      at,
      source: this.source,
      preset: field("preset").value,
      size: field("size").value,
      seed: field("seed").value,
      daemonSeed
    };
  }

  /**
   * Restores a kept state. Returns whether it succeeded.
   * @param {KeptLab} kept
   */
  restore(kept) {
    try {
      const { plan, places } = kept;
      const layout = {...places, x: Float64Array.from(places.x), y: Float64Array.from(places.y) };
      this.source = kept.source;
      this.nameNodes();
      this.play.open({...plan, layout });
      this.play.placeless = new Set(kept.placeless);
      this.play.daemon.seed = kept.daemonSeed;
      field("preset").value = kept.preset;
      field("seed").value = kept.seed;
      this.showChoice(Number(kept.size));
      this.play.turnTo(kept.at);
      this.play.daemon.run(false);
      this.play.draw();
      this.play.story.say("Here is what stood on the page before it was loaded again.");
      return true;
    } catch {
      // no message for a state that another version of the page kept
      this.source = null;
      this.nameNodes();
      return false;
    }
  }
}

/** @returns {HTMLButtonElement[]} */
function toolButtons() {
  return [...document.querySelectorAll("[data-tool]")]
    .filter((button) => button instanceof HTMLButtonElement)
    .map((button) => /** @type {HTMLButtonElement} */ (button));
}
