// Plays a transcript: replays it, and shows the current entry in each part of the page.
import {Address} from "./address.mjs";
import {MOST_DRAWN} from "./drawing.mjs";
import {Inspector} from "./inspector.mjs";
import {showJudge} from "./judge.mjs";
import {listen, PLAYER_KEYS} from "./keys.mjs";
import {counted, grouped} from "./numbers.mjs";
import {Panel} from "./panel.mjs";
import {listenToSaving} from "./picture.mjs";
import {Player} from "./player.mjs";
import {plotsOf} from "./plots.mjs";
import {Replay} from "./replay.mjs";
import {Stage} from "./stage.mjs";
import {byId, field, graphic, nameWindow} from "./svg.mjs";
import {nodesOf, Transcript, TranscriptFault} from "./transcript.mjs";

const RULE_SET_NAMES = {
  hh: "Hsu and Huang",
  manne: "Manne, Mjelde, Pilard and Tixeuil"
};
// the parts of the page that play a transcript
const PARTS = ["player", "bar"];

/** @param {Transcript} transcript */
function sizeOf({ nodes, length }) {
  return `${counted(nodes, "node")}, ${counted(length, "entry", "entries")}`;
}

/** @param {Transcript} transcript */
function baseOf({ first, state }) {
  return state ? `, from the base at entry ${grouped(first)}` : "";
}

/** @param {Transcript} transcript */
function titleOf(transcript) {
  return `${transcript.rules}: ${sizeOf(transcript)}${baseOf(transcript)}`;
}

/** @param {Transcript} transcript */
function showTitle(transcript) {
  byId("title").textContent =
    `${sizeOf(transcript)}, rules of ${RULE_SET_NAMES[transcript.rules]}${baseOf(transcript)}`;
  nameWindow(titleOf(transcript));
}

/** @param {import("./replay.mjs").Replay} replay */
function stageOf(replay) {
  const { nodes } = replay.transcript;
  if (nodes > 0 && nodes <= MOST_DRAWN) {
    return new Stage(graphic("graph"), nodes, replay.edgesEver);
  }
  document.body.classList.add("undrawn");
  byId("undrawn").textContent = nodes === 0 ?
    "No nodes: there is nothing to draw. The plots stand in the drawing's place." :
    `${grouped(nodes)} nodes: up to ${
      grouped(
        MOST_DRAWN)} are drawn. The plots of the whole transcript stand in the drawing's place; a node that is found by its number is told of here.`;
  return null;
}

/**
 * @param {import("./stage.mjs").Stage | null} stage
 * @param {import("./inspector.mjs").Inspector} inspector
 */
function drawingActions(stage, inspector) {
  const zoom = stage?.zoom;
  return {
    "zoom-in": () => zoom?.by(1.4),
    "zoom-out": () => zoom?.by(1 / 1.4),
    "zoom-fit": () => zoom?.fit(),
    "node-before": () => inspector.stepNode(-1),
    "node-behind": () => inspector.stepNode(1),
    edge: () => inspector.stepEdge(),
    "let-go": () => inspector.pick(null),
    find: () => field("find").select(),
  };
}

/**
 * @param {number} nodes
 * @param {import("./inspector.mjs").Inspector} inspector
 * @param {import("./stage.mjs").Stage | null} stage
 */
function listenToFinding(nodes, inspector, stage) {
  const wanted = field("find");
  wanted.max = String(nodes);
  wanted.addEventListener("input", () => {
    const node = Number(wanted.value);
    const known = Number.isInteger(node) && node >= 1 && node <= nodes;
    wanted.setCustomValidity(known || wanted.value === "" ? "" : `names are 1 to ${grouped(nodes)}`);
    inspector.pick(known ? { node } : null);
    if (known) {
      stage?.reveal({ node });
    }
  });
  wanted.addEventListener("change", () => wanted.reportValidity());
}

/**
 * @param {Replay} replay
 * @param {number} number
 */
function pictureOf({ transcript }, number) {
  const { rules, nodes } = transcript;
  return {
    svg: graphic("graph"),
    name: `matching-${rules}-${nodes}-entry-${number}`,
    title: `${titleOf(transcript)}: after entry ${grouped(number)}`
  };
}

/**
 * Plays a replay until `signal` ends it. Returns the places of the drawn nodes.
 * @param {import("./replay.mjs").Replay} replay
 * @param {AbortSignal} signal
 */
function play(replay, signal) {
  const { transcript } = replay;
  const stage = stageOf(replay);
  const inspector = new Inspector(() => replay.machine, stage);
  stage?.listen(inspector, () => replay.machine);
  const panel = new Panel(replay, (number) => player.goTo(number));
  const plots = plotsOf(replay, (number) => player.goTo(number));
  const address = new Address((number) => player.goTo(number), signal);
  const player = new Player(replay, (number) => {
    const machine = replay.goTo(number);
    const entry = number === transcript.first ? null : transcript.entry(number);
    stage?.show(machine, entry, entry ? nodesOf(entry) : []);
    panel.show(machine, number, entry);
    plots.forEach((plot) => plot.point(number));
    inspector.show();
    document.body.dataset.entry = String(number);
  });
  /** @type {Record<string, () => void>} */
  const actions = {...drawingActions(stage, inspector), ...player.actions };
  ["zoom-in", "zoom-out", "zoom-fit"].forEach((name) => byId(name).addEventListener("click", actions[name]));
  plots.forEach((plot) => plot.draw());
  new ResizeObserver(() => plots.forEach((plot) => plot.draw())).observe(byId("plots"));
  listenToFinding(transcript.nodes, inspector, stage);
  listenToSaving("save-svg", "save-png", () => pictureOf(replay, player.at));
  listen(actions, PLAYER_KEYS, signal);
  player.goTo(address.entry ?? replay.opening);
  player.moved = (/** @type {number} */ number) => address.show(number);
  signal.addEventListener("abort", () => player.pause());
  return stage?.layout ?? null;
}


/** @param {Error} wrong */
function refuse(wrong) {
  document.body.classList.add("broken");
  byId("title").textContent = `This is no transcript: ${wrong.message}.`;
  nameWindow("no transcript");
}

/**
 * @param {string} text
 * @param {Judge} judge
 * @param {AbortSignal} signal
 */
function show(text, judge, signal) {
  const replay = new Replay(new Transcript(text));
  const { rules } = replay.transcript;
  document.body.classList.add(rules);
  showTitle(replay.transcript);
  showJudge(judge, replay.verdict);
  return { text, layout: play(replay, signal) };
}

export class Playing {
  constructor() {
    this.fresh = PARTS.map((id) => /** @type {Element} */ (byId(id).cloneNode(true)));
    this.ended = null;
    /**
     * The transcript that is played, or null; with the places of its nodes, or null if they are not drawn.
     * @type {{ text: string, layout: Layout | null } | null}
     */
    this.shown = null;
  }

  /**
   * @param {string} text
   * @param {Judge} judge
   */
  begin(text, judge) {
    this.end();
    this.ended = new AbortController();
    document.body.classList.remove("hh", "manne", "broken", "undrawn");
    this.fresh.forEach((part) => byId(part.id).replaceWith(part.cloneNode(true)));
    this.shown = null;
    try {
      this.shown = show(text, judge, this.ended.signal);
    } catch (wrong) {
      if (!(wrong instanceof TranscriptFault)) {
        byId("title").textContent = `This page fails: ${wrong.message}`;
        throw wrong;
      }
      refuse(wrong);
      showJudge(judge, "no transcript");
    }
  }

  get isOn() {
    return this.ended !== null && !this.ended.signal.aborted;
  }

  end() {
    this.ended?.abort();
    this.shown = null;
  }
}
