// The playground: one network, or the same one under both rule sets, for the page's user to change.
import {lastOf} from "../lists.mjs";
import {counted} from "../numbers.mjs";
import {byId, field} from "../svg.mjs";
import {nodesOf, readEntry} from "../transcript.mjs";
import {Card} from "./card.mjs";
import {Chooser} from "./chooser.mjs";
import {Daemon} from "./daemon.mjs";
import {linesAt, linesBetween} from "./halo.mjs";
import {BadLine, Lab} from "./lab.mjs";
import {Pane} from "./pane.mjs";
import {Past} from "./past.mjs";
import {freePlace, placesOf, within} from "./places.mjs";
import {Story} from "./story.mjs";
import {Texts} from "./texts.mjs";
import {Tools} from "./tools.mjs";
import {Work} from "./work.mjs";

// how many milliseconds a changed edge stays marked
const MARKED = 1600;
// and a moved node lit
const LIT = 700;

/** @param {string} text */
function lastEntry(text) {
  const line = lastOf(text.trimEnd().split("\n"));
  return /^\d/.test(line) ? readEntry(line) : null;
}

/**
 * @param {string[]} one
 * @param {string[]} other
 */
function isSame(one, other) {
  return one.length === other.length && one.every((line, at) => line === other[at]);
}

export class Playground {
  /**
   * @param {import("../rudekpi/engine.mjs").Engine} engine
   * @param {(text: string) => void} judge
   */
  constructor(engine, judge) {
    this.engine = engine;
    /** @type {Lab[]} */
    this.labs = [];
    /** @type {Pane[]} */
    this.panes = [];
    this.at = 0;
    /**
     * The entry whose edge is marked.
     * @type {Entry | null}
     */
    this.changed = null;
    /**
     * The intended edits and faults, in the present network.
     * @type {() => string[]}
     */
    this.intended = () => [];
    /** @type {() => void} */
    this.hasChanged = () => {};
    this.past = new Past();
    this.work = new Work();
    const acts = {
      /** @param {string} line */
      disturb: (line) => this.disturb(line),
      /**
       * @param {Lab} lab
       * @param {string} line
       */
      move: (lab, line) => this.move(lab, line),
      /** @param {Thing | null} thing */
      choose: (thing) => this.chooser.choose(thing),
      /**
       * @param {string} text
       * @param {boolean} [wrong]
       */
      say: (text, wrong) => this.story.say(text, wrong),
      /**
       * @param {number} node
       * @param {Place | null} place
       */
      settle: (node, place) => this.settle(node, place),
      /** @param {() => string[]} lines */
      intend: (lines) => this.surround(lines)
    };
    this.chooser = new Chooser((thing) => this.showChosen(thing));
    this.story = new Story(byId("story"));
    this.tools = new Tools(acts);
    this.card = new Card(acts);
    this.daemon = new Daemon(this);
    this.texts = new Texts(() => this.lab, {
      play: (lines) => this.playLines(lines),
      judge,
      pause: () => this.daemon.run(false),
      say: acts.say,
      saved: () => this.work.saved()
    });
  }

  get lab() {
    return this.labs[this.at];
  }

  /**
   * Begins anew. Throws `BadLine` and changes nothing if a line is bad.
   * @param {Plan} plan
   */
  open(plan) {
    const { names, present, start } = plan;
    /** @type {Lab[]} */
    const labs = [];
    try {
      for (const { rules, lines } of plan.labs) {
        labs.push(new Lab(this.engine, { rules, names, present, start }));
        lastOf(labs).replay(lines);
      }
    } catch (wrong) {
      labs.forEach((lab) => lab.free());
      throw wrong;
    }
    this.labs.forEach((lab) => lab.free());
    this.panes.forEach((pane) => pane.close());
    this.labs = labs;
    this.past = new Past();
    this.at = 0;
    this.daemon.stretch = false;
    this.changed = null;
    this.intended = () => [];
    this.layout = plan.layout ?? placesOf({...plan, links: plan.links ?? labs[0].linksEver }, names);
    // names without a given place; each has one in a layout
    this.placeless =
      new Set(plan.layout ? [] : Array.from({ length: names - plan.nodes }, (_, at) => plan.nodes + 1 + at));
    // two networks have a longer story
    ["panes", "invite"].forEach((part) => byId(part).classList.toggle("two", labs.length > 1));
    this.panes = labs.map((lab, at) => this.paneOf(lab, at));
    byId("which").hidden = labs.length < 2;
    document.body.classList.toggle("flagless", labs.every((lab) => !lab.seen.flags));
    this.work.saved();
    this.texts.edit(false);
    this.chooser.choose(null);
    this.story.open();
    this.placeNewcomers();
    this.show();
  }

  /**
   * The plan that `open` makes the same of.
   * @returns {Plan}
   */
  get plan() {
    const { names, present, start } = this.lab;
    return {
      names,
      present,
      start,
      nodes: names,
      labs: this.labs.map(({ rules, lines }) => ({ rules, lines: lines.slice() })),
      layout: this.layout
    };
  }

  /**
   * @param {Lab} lab
   * @param {number} at
   */
  paneOf(lab, at) {
    const pane = new Pane(lab, this.layout, {
      tap: (thing, place) => {
        this.turnTo(at);
        this.tools.tap(lab, thing, place);
      },
      pair: (node, thing) => {
        this.surround(() => []);
        this.tools.pair(node, thing);
      },
      point: (from, thing) => this.aim(from, thing),
      stretch: (node, thing) => this.surround(() => linesBetween(this.tools.name, node, thing)),
      draws: () => this.tools.draws,
      moved: (node, x, y) => this.settle(node, { x, y }),
    });
    pane.svg.addEventListener("focus", () => this.turnTo(at));
    return pane;
  }

  /**
   * Chooses the network of two that the card and the texts describe.
   * @param {number} at
   */
  turnTo(at) {
    if (at !== this.at && this.labs[at]) {
      this.at = at;
      this.texts.edit(false);
      this.texts.write();
    }
    field("which").value = this.lab.rules;
  }

  /** @param {boolean} whole */
  remember(whole = false) {
    this.past.remember(this.labs, whole);
    this.daemon.stretch = false;
  }

  /**
   * Returns the entries.
   * @param {string} line
   * @param {Lab[]} labs
   */
  feed(line, labs) {
    return labs.map((lab) => {
      const text = this.feedOne(line, lab);
      lab.fed = true;
      lab.lit.push(...text.split("\n").filter((line) => line.includes(" step ")).map(readEntry).flatMap(nodesOf));
      return text;
    });
  }

  /**
   * @param {string} line
   * @param {Lab} lab
   */
  feedOne(line, lab) {
    try {
      return lab.feed(line);
    } catch (wrong) {
      this.daemon.run(false);
      const why = wrong instanceof BadLine ? `The line ${wrong.text} ${wrong.why}.` :
                                             `The engine does not go on: ${wrong.message}.`;
      this.story.say(why, true);
      throw wrong;
    }
  }

  /**
   * Carries out an edit, a fault or a scramble in all networks that have the register it writes.
   * @param {string} line
   */
  disturb(line) {
    const labs = this.labs.filter((lab) => lab.seen.flags || !line.startsWith("flag "));
    if (labs.length === 0) {
      this.story.say("The rules of Hsu and Huang know no flags.", true);
      return;
    }
    this.remember();
    const texts = this.attempt(() => this.feed(line, labs));
    if (texts === null) {
      return;
    }
    this.work.acted();
    this.look(labs);
    const refused = texts.map(lastEntry).find((entry) => entry?.refused);
    if (refused) {
      this.story.say(`${refused.event} is refused: ${refused.reply.split(" ").slice(2).join(" ")}.`, true);
      this.draw();
      return;
    }
    const most = new Map();
    labs.forEach(({ rules, seen }) => most.set(rules, { moves: seen.movesLeft, rounds: seen.roundsLeft }));
    this.story.breaks(line, most);
    this.mark(lastEntry(texts[0]));
    this.placeNewcomers();
    this.show();
  }

  /**
   * Returns null if the act's line was not carried out, which is then shown.
   * @template T
   * @param {() => T} act
   * @param {boolean} begins whether the act was remembered as one of its own
   * @returns {T | null}
   */
  attempt(act, begins = true) {
    try {
      return act();
    } catch (wrong) {
      if (!(wrong instanceof BadLine)) {
        throw wrong;
      }
      if (begins) {
        this.past.forget();
      }
      return null;
    }
  }

  /**
   * @param {Lab} lab
   * @param {string} line
   */
  move(lab, line) {
    this.remember();
    if (this.attempt(() => this.feed(line, [lab]))) {
      this.work.acted();
      this.show();
    }
  }

  tell() {
    if (this.labs.length > 0) {
      const panels = this.labs.map(
        ({ rules, seen }) => ({ rules, moves: seen.spent, rounds: seen.rounds, isSilent: seen.enabledCount === 0 }));
      this.story.goesOn(panels, this.lab.seen.pairCount);
    }
  }

  undo() {
    this.retrace(this.past.back(this.labs), "There is nothing to take back.", "Taken back");
  }

  redo() {
    this.retrace(this.past.again(this.labs), "There is nothing to do again.", "Done again");
  }

  /**
   * @param {string[][] | null} scripts
   * @param {string} nothing the message if there was no such act
   * @param {string} done
   */
  retrace(scripts, nothing, done) {
    this.daemon.run(false);
    if (scripts === null) {
      this.story.say(nothing);
      return;
    }
    const before = this.lab.lines.length;
    scripts.forEach((lines, at) => isSame(lines, this.labs[at].lines) || this.labs[at].replay(lines));
    this.daemon.stretch = false;
    this.changed = null;
    this.work.acted();
    this.story.open();
    this.texts.drop();
    this.placeNewcomers();
    this.show();
    this.story.say(`${done}: ${counted(Math.abs(before - this.lab.lines.length), "line")} of the script.`);
  }

  /**
   * Plays a script in the described network. Throws `BadLine` and changes nothing if a line is bad.
   * @param {string[]} lines
   */
  playLines(lines) {
    const { lab } = this;
    const before = lab.lines.slice();
    this.daemon.run(false);
    this.remember(true);
    try {
      lab.replay(lines);
    } catch (wrong) {
      lab.replay(before);
      this.past.forget();
      throw wrong;
    }
    this.work.acted();
    this.placeNewcomers();
    this.story.open();
    this.show();
    this.story.say(`Played: ${counted(lines.length, "line")}.`);
  }

  /** @param {Thing | null} thing */
  showChosen(thing) {
    this.panes.forEach((pane) => pane.drawing.pick(thing));
    if (this.labs.length > 0) {
      this.card.show(this.lab, thing);
      this.surround(() => linesAt(this.tools, this.lab.seen, thing));
    }
  }

  /**
   * Draws a halo round the nodes that the intended act would reach, until the intention changes.
   * @param {() => string[]} intended
   */
  surround(intended) {
    this.intended = intended;
    this.panes.forEach((pane) => pane.surround(intended()));
  }

  /**
   * @param {Lab} lab
   * @param {Thing | null} thing
   */
  aim(lab, thing) {
    const aimed = this.tools.aims(thing);
    this.surround(() => linesAt(this.tools, lab.seen, aimed));
    this.panes.forEach((pane) => {
      const cuts = this.tools.name === "cut" && aimed?.low;
      pane.svg.classList.toggle("aimed", aimed !== null);
      pane.drawing.pick(aimed ?? this.chooser.thing, cuts ? "cutting" : "");
    });
  }

  /**
   * Puts a node at a given place, or with null at a free one.
   * @param {number} node
   * @param {Place | null} place
   */
  settle(node, place) {
    const [x, y] = place ? within(this.layout, place.x, place.y) : freePlace(this.layout, this.lab.seen.here);
    this.layout.x[node] = x;
    this.layout.y[node] = y;
    this.placeless.delete(node);
    this.panes.forEach((pane) => pane.drawing.replace(node));
    this.hasChanged();
  }

  placeNewcomers() {
    const { here } = this.lab.seen;
    here.forEach((present, v) => present && this.placeless.has(v) && this.settle(v, null));
  }

  /** @param {Entry | null} entry */
  mark(entry) {
    clearTimeout(this.fading);
    this.changed = entry?.disturbs ? entry : null;
    this.fading = setTimeout(() => {
      this.changed = null;
      this.draw();
    }, MARKED);
  }

  /** @param {Lab[]} labs */
  look(labs) {
    labs.filter((lab) => lab.fed).forEach((lab) => lab.look());
  }

  /** Reads all networks from the engine, and shows them. */
  show() {
    this.look(this.labs);
    this.panes.forEach((pane) => pane.note());
    this.draw();
    this.tell();
  }

  draw() {
    clearTimeout(this.calming);
    if (this.labs.some((lab) => lab.lit.length > 0)) {
      this.calming = setTimeout(() => this.draw(), LIT);
    }
    this.panes.forEach((pane) => {
      pane.show(this.changed, pane.lab.lit);
      pane.lab.lit = [];
    });
    this.surround(this.intended);
    if (this.chooser.thing !== null) {
      this.card.show(this.lab, this.chooser.thing);
    }
    field("undo").disabled = this.past.acts.length === 0;
    field("redo").disabled = this.past.undone.length === 0;
    this.texts.show();
    this.hasChanged();
  }
}
