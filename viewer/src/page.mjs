// Plays the transcript in the page; without one, offers the playground. The engine judges a transcript, plays
// a script or links a graph that is opened, dropped or pasted.
import {beforeCut} from "./cut.mjs";
import {counted} from "./numbers.mjs";
import {useNames} from "./own_names.mjs";
import {Playing} from "./playing.mjs";
import {Keeper} from "./playground/keeping.mjs";
import {LabPage} from "./playground/lab_page.mjs";
import {listenToFiles} from "./playground/opening.mjs";
import {kindOf} from "./playground/text_kinds.mjs";
import {summaryOf} from "./rudekpi/audits.mjs";
import {canRun, Engine} from "./rudekpi/engine.mjs";
import {Damaged} from "./rudekpi/errors.mjs";
import {byId, nameWindow} from "./svg.mjs";

const LONGEST_SHOWN = 300;
// keeps the state this many milliseconds after a change, and a larger one later
const SOON = 400;
const LATER = 2000;
const LARGE = 1 << 20;
const WITHOUT =
  "This browser does not run WebAssembly, so no network can be broken here. A recorded run is played in its place, and so is a transcript that you open.";

/** @param {string} id */
function dataOf(id) {
  return JSON.parse(byId(id).textContent);
}

/**
 * The engine of a module as text, or null if this browser refuses it.
 * @param {string} text
 */
async function load(text) {
  try {
    return await Engine.load(Uint8Array.from(atob(text), (letter) => letter.charCodeAt(0)));
  } catch {
    return null;
  }
}

/**
 * The audit's verdict on a transcript, a line as the program writes it; and the damage, or null if it
 * accepts.
 * @param {Engine} engine
 * @param {Uint8Array} bytes
 */
function verdictOf(engine, bytes) {
  try {
    const { entries, epochs, moves } = summaryOf(engine, bytes);
    return { said: `accepted: ${entries} entries, ${epochs} epochs, ${moves} moves`, wrong: null };
  } catch (wrong) {
    if (!(wrong instanceof Damaged)) {
      throw wrong;
    }
    return { said: wrong.message, wrong };
  }
}

/**
 * Why a transcript is refused, in the audit's words, and what remains of it if its end is cut.
 * @param {Engine} engine
 * @param {string} text
 * @param {Damaged} damage
 * @returns {Wrong}
 */
function refusalOf(engine, text, { message, line }) {
  const rest = beforeCut(text, line, (part) => verdictOf(engine, new TextEncoder().encode(part)).wrong === null);
  return {
    said: `The transcript is refused: ${message}${rest === null ? "" : ". Its end is cut."}`,
    line: text.split("\n")[line - 1] || "(there is no such line, or it is empty)",
    rest
  };
}

class Page {
  constructor() {
    this.playing = new Playing();
    /** @type {LabPage | null} */
    this.lab = null;
    /**
     * The transcript that was opened here, while it is played.
     * @type {string | null}
     */
    this.opened = null;
    /** Its file, or an empty name. */
    this.file = "";
    /** What remains of the refused transcript, or nothing. */
    this.rest = "";
    /**
     * The network kept before a reload, or null.
     * @type {import("./playground/keeping.mjs").KeptLab | null}
     */
    this.keptLab = null;
    /** @type {Promise<Engine | null> | undefined} */
    this.loaded = undefined;
    this.runs = dataOf("engine") !== null && canRun();
    this.showWays();
    byId("to-lab").addEventListener("click", () => this.openLab(null));
    byId("go-on").addEventListener("click", () => this.goOn());
    /** @type {string | null} */
    this.embedded = dataOf("transcript");
    byId("to-transcript").hidden = this.embedded === null;
    byId("to-transcript").addEventListener("click", () => this.play(this.embedded, dataOf("judge")));
    byId("refusal-close").addEventListener("click", () => this.refuse(null));
    byId("refusal-rest").addEventListener("click", () => this.judge(new TextEncoder().encode(this.rest), ""));
    listenToFiles((data, name) => this.open(data, name), (wrong) => this.refuse(wrong));
    this.keeper = new Keeper((said) => this.refuse({ said, line: "" }));
    this.keeper.listen();
    addEventListener("pagehide", () => this.keep());
  }

  async start() {
    const before = await this.keeper.kept();
    this.keptLab = before?.lab ?? null;
    if (before?.view === "player" && before.transcript !== null) {
      await this.judge(new TextEncoder().encode(before.transcript), before.file ?? "");
    } else if (this.embedded !== null && before?.view !== "lab") {
      this.play(this.embedded, dataOf("judge"));
    } else {
      await this.openLab(before?.lab ?? null);
    }
    if (before && before.lost.length > 0) {
      const what = before.lost.includes("lab") ? "network that was here" : "transcript that was open here";
      this.refuse({ said: `The browser has not kept the ${what}: open its file again.`, line: "" });
    }
  }

  /** The engine, loaded at its first use; null if this browser does not run it. */
  async engine() {
    this.loaded ??= this.runs ? load(dataOf("engine")) : Promise.resolve(null);
    const engine = await this.loaded;
    this.runs = engine !== null;
    this.showWays();
    return engine;
  }

  /** Both need the engine, and a network to go on from needs a transcript. */
  showWays() {
    byId("to-lab").hidden = !this.runs;
    byId("go-on").hidden = !this.runs || this.playing.shown === null;
  }

  playRecorded() {
    if (this.embedded !== null) {
      this.play(this.embedded, dataOf("judge"));
      return;
    }
    const { transcript, judge } = dataOf("recorded");
    this.play(transcript, judge);
    this.refuse({ said: WITHOUT, line: "" });
    if (!matchMedia("(prefers-reduced-motion: reduce)").matches) {
      byId("play").click();
    }
  }

  /**
   * @param {string} text
   * @param {Judge} judge
   */
  play(text, judge) {
    this.lab?.leave();
    document.body.classList.remove("lab");
    // the names in the page are those of the transcript in it
    useNames(text === this.embedded ? dataOf("names") : null);
    this.playing.begin(text, judge);
    this.showWays();
  }

  /** @param {import("./playground/keeping.mjs").KeptLab | null} state kept before a reload, or null */
  async openLab(state) {
    const engine = await this.engine();
    if (engine === null) {
      this.playRecorded();
      return;
    }
    this.lab ??= this.labPage(engine);
    this.showLab(state);
  }

  /** @param {import("./playground/keeping.mjs").KeptLab | null} state */
  showLab(state) {
    if (document.body.classList.contains("lab")) {
      return;
    }
    this.playing.end();
    this.opened = null;
    document.body.classList.remove("hh", "manne", "broken", "undrawn");
    document.body.classList.add("lab");
    nameWindow("Break a network by hand");
    byId("title").textContent = "Each node knows its neighbours alone. Whatever you break, they pair up anew.";
    this.lab.enter(state ?? this.keptLab ?? null);
  }

  /** @param {Engine} engine */
  labPage(engine) {
    const lab =
      new LabPage(engine, (text) => this.judge(new TextEncoder().encode(text), ""), (wrong) => this.refuse(wrong));
    lab.names = dataOf("names");
    lab.play.hasChanged = () => this.keepSoon();
    return lab;
  }

  keepSoon() {
    const size = this.lab.play.labs.reduce((sum, lab) => sum + lab.size, 0);
    this.soon ??= setTimeout(() => {
      this.soon = null;
      this.keep();
    }, size < LARGE ? SOON : LATER);
  }

  keep() {
    const isLab = document.body.classList.contains("lab");
    const state = this.lab?.play.labs.length > 0 ? this.lab.state : this.keptLab;
    if (isLab || this.opened !== null) {
      this.keeper.keep(isLab ? "lab" : "player", state, this.opened, this.file);
    } else {
      this.keeper.forget();
    }
  }

  /**
   * @param {Uint8Array} bytes
   * @param {string} name the file's, or empty
   */
  async open(bytes, name) {
    const text = new TextDecoder().decode(bytes);
    const kind = kindOf(text, name);
    if (kind === "transcript") {
      await this.judge(bytes, name);
    } else if (kind === "nothing" || kind === "GraphML") {
      const said = kind === "nothing" ?
        "There is nothing in it." :
        "GraphML and other XML are not read here: save the graph as an edge list, or as node-link JSON.";
      this.refuse({ said, line: "" });
    } else {
      await this.openInLab(text, name, kind);
    }
  }

  /**
   * @param {string} text
   * @param {string} name
   * @param {string} kind
   */
  async openInLab(text, name, kind) {
    const engine = await this.engine();
    if (engine === null) {
      this.refuse({ said: WITHOUT, line: "" });
      return;
    }
    this.lab ??= this.labPage(engine);
    this.lab.openText(text, name, kind, () => this.showLab(null));
  }

  /**
   * Makes the network at the end of the played transcript the one that hands change. What is wrong with a
   * transcript that no engine has judged is shown as the audit's verdict.
   */
  async goOn() {
    const engine = await this.engine();
    if (engine === null) {
      this.refuse({ said: WITHOUT, line: "" });
      return;
    }
    if (this.playing.shown === null) {
      return;
    }
    const { text, layout } = this.playing.shown;
    const named = text === this.embedded && dataOf("names") !== null;
    const file = this.opened === null ? "" : this.file;
    this.lab ??= this.labPage(engine);
    try {
      this.lab.goOn({ text, file, layout, named }, () => this.showLab(null));
    } catch (wrong) {
      if (!(wrong instanceof Damaged)) {
        throw wrong;
      }
      this.refuse(refusalOf(engine, text, wrong));
    }
  }

  /**
   * Judges a transcript by the engine, and plays it if it is accepted.
   * @param {Uint8Array} bytes
   * @param {string} file its name, or empty
   */
  async judge(bytes, file) {
    const text = new TextDecoder().decode(bytes);
    const engine = await this.engine();
    if (engine === null) {
      [this.opened, this.file] = [text, file];
      this.play(text, { verdict: null });
      return;
    }
    const { said, wrong } = verdictOf(engine, bytes);
    this.refuse(wrong && refusalOf(engine, text, wrong));
    if (wrong === null) {
      [this.opened, this.file] = [text, file];
      this.play(text, { here: true, verdict: said });
      this.keep();
    } else if (!this.playing.isOn && !document.body.classList.contains("lab")) {
      await this.openLab(null);
    }
  }

  /** @param {Wrong | null} wrong */
  refuse(wrong) {
    byId("refusal").hidden = wrong === null;
    byId("refusal-said").textContent = wrong?.said ?? "";
    byId("refusal-line").textContent = (wrong?.line ?? "").slice(0, LONGEST_SHOWN);
    this.rest = wrong?.rest ?? "";
    byId("refusal-rest").hidden = this.rest === "";
    byId("refusal-rest").textContent = `open the ${counted(this.rest.split("\n").length - 1, "line")} before it`;
    if (wrong) {
      byId("refusal").scrollIntoView({ block: "nearest" });
    }
  }
}

new Page().start();
