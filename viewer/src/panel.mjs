// The entry with its reply, the entries near it, and the state in numbers.
import {counted, grouped} from "./numbers.mjs";
import {labelOf, told} from "./own_names.mjs";
import {byId} from "./svg.mjs";
import {nodesOf} from "./transcript.mjs";

const NEAR = 3;
const LONGEST = 400;

/** @param {string} text */
function cut(text) {
  return text.length > LONGEST ? `${text.slice(0, LONGEST)} … (${grouped(text.length)} characters)` : text;
}

/**
 * The items before the first entry: none, or the entries that led to a base.
 * @param {import("./transcript.mjs").Transcript} transcript
 */
function openingOf(transcript) {
  if (!transcript.state) {
    return { kind: "", event: "the opening state", reply: "no entry yet" };
  }
  const before = transcript.first === 0 ? "no entry" : counted(transcript.first, "entry", "entries");
  return { kind: "base", event: transcript.opening, reply: `the state that ${before} led to` };
}

/**
 * @param {import("./transcript.mjs").Transcript} transcript
 * @param {number} number
 * @param {number} current
 */
function item(transcript, number, current) {
  const made = document.createElement("li");
  const button = document.createElement("button");
  const entry = number === transcript.first ? null : transcript.entry(number);
  button.type = "button";
  button.dataset.entry = String(number);
  button.textContent = entry ? cut(`${entry.number} ${entry.event} = ${entry.reply}`) :
    transcript.state ? `${number} the base` :
                       `${number} the opening state`;
  button.tabIndex = -1;
  made.classList.toggle("refused", Boolean(entry?.refused));
  made.classList.toggle("disturbs", Boolean(entry?.disturbs));
  if (number === current) {
    button.setAttribute("aria-current", "true");
  }
  made.append(button);
  return made;
}

/**
 * A later base; the page does not go to it.
 * @param {string} line
 */
function baseItem(line) {
  const made = document.createElement("li");
  made.className = "base";
  made.textContent = line;
  return made;
}

export class Panel {
  /**
   * @param {import("./replay.mjs").Replay} replay
   * @param {(number: number) => void} goTo
   */
  constructor(replay, goTo) {
    this.replay = replay;
    byId("near").addEventListener("click", (event) => {
      const button = /** @type {Element} */ (event.target).closest("button");
      if (button) {
        goTo(Number(button.dataset.entry));
      }
    });
  }

  /**
   * @param {import("./machine.mjs").Machine} machine
   * @param {number} number
   * @param {Entry} entry
   */
  show(machine, number, entry) {
    this.showEntry(number, entry);
    this.showNear(number);
    const spent = this.replay.valueAt("spent", number);
    const epoch = this.replay.epochAt(number);
    const figures = {
      nodes: machine.present,
      edges: machine.edgeCount,
      pairs: machine.pairCount,
      enabled: machine.enabledCount,
      charge: machine.charge,
      spent,
      rounds: this.replay.valueAt("rounds", number),
      left: this.replay.movesLeft(number),
      bound: this.replay.bound(number),
      epoch: epoch.start === null ? `≤ ${grouped(this.replay.transcript.first)}` : epoch.start,
    };
    for (const [name, value] of Object.entries(figures)) {
      const place = byId(name);
      place.textContent = typeof value === "number" ? grouped(value) : value;
    }
    byId("most-rounds").textContent = `≤ ${grouped(this.replay.mostRounds(number))}`;
    byId("bound-by").textContent = this.boundBy(number);
    byId("quiet").textContent = machine.enabledCount === 0 ? "stable, silent" : "not stable";
    byId("quiet").classList.toggle("stable", machine.enabledCount === 0);
  }

  /** @param {number} number */
  boundBy(number) {
    if (this.replay.isBoundByNodes(number)) {
      return this.replay.valueAt("nodes", number) < 2 ? "n < 2" : "⌊n²/2⌋+n−2";
    }
    return this.replay.transcript.rules === "hh" ? "2m+n" : "2m+3n";
  }

  /**
   * @param {number} number
   * @param {Entry | null} entry
   */
  showEntry(number, entry) {
    const { kind, event, reply } = entry ?? openingOf(this.replay.transcript);
    byId("number").textContent = grouped(number);
    byId("event").textContent = cut(event);
    byId("reply").textContent = cut(reply);
    const named = entry ? nodesOf(entry).filter((v) => labelOf(v) !== null) : [];
    byId("who").textContent = cut(named.map(told).join(", "));
    byId("entry").classList.toggle("refused", Boolean(entry?.refused));
    byId("entry").classList.toggle("disturbs", Boolean(entry?.disturbs));
    byId("kind").textContent = entry?.refused ? "⊘ refused" :
      entry?.disturbs                         ? "↯ disturbance" :
      kind === "base"                         ? kind :
                                                "";
  }

  /** @param {number} number */
  showNear(number) {
    const { transcript } = this.replay;
    const first = Math.max(transcript.first, Math.min(number - NEAR, transcript.last - 2 * NEAR));
    const last = Math.min(transcript.last, first + 2 * NEAR);
    const items = [];
    for (let k = first; k <= last; k += 1) {
      items.push(item(transcript, k, number));
      if (transcript.bases.has(k)) {
        items.push(baseItem(transcript.bases.get(k)));
      }
    }
    byId("near").replaceChildren(...items);
  }
}
