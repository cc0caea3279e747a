// Explains a node or an edge: its registers, enabled rule with guard, and charge.
import {lastOf} from "./lists.mjs";
import {counted} from "./numbers.mjs";
import {told} from "./own_names.mjs";

const MOST_NAMED = 12;

/**
 * `3`, `3 and 5`, `3, 5 and 9`.
 * @param {number[]} numbers
 */
export function listed(numbers) {
  const names = numbers.map(told);
  if (names.length > MOST_NAMED) {
    return `${names.slice(0, MOST_NAMED).join(", ")} and ${names.length - MOST_NAMED} more`;
  }
  return names.length < 2 ? names.join("") : `${names.slice(0, -1).join(", ")} and ${lastOf(names)}`;
}

/**
 * @param {import("./machine.mjs").Machine} machine
 * @param {number} v
 */
function suitorsOf(machine, v) {
  return [...machine.neighbours[v]].filter((w) => machine.pointer[w] === v).sort((a, b) => a - b);
}

/**
 * @param {import("./machine.mjs").Machine} machine
 * @param {number} v
 */
function pointerOf(machine, v) {
  const w = machine.pointer[v];
  if (w === 0) {
    return "null: it points nowhere";
  }
  return machine.pointer[w] === v ? `at ${told(w)}, which points back: they are married` :
                                    `at ${told(w)}, which does not point back`;
}

/**
 * @param {import("./machine.mjs").Machine} machine
 * @param {number} w
 */
function whereTo(machine, w) {
  return machine.pointer[w] === 0 ? "points nowhere" : `points at ${told(machine.pointer[w])}`;
}

/**
 * @param {import("./machine.mjs").Machine} machine
 * @param {number} v
 */
function whySeduce(machine, v) {
  const open = machine.openNeighbours(v);
  const free = "it points nowhere, nobody points at it";
  if (machine.flags) {
    return `${free}, and ${
      told(lastOf(open))} is the highest neighbour above it that points nowhere and has the flag 0`;
  }
  return `${free}, and ${
    open.length === 1 ? `its neighbour ${told(open[0])} points` : `its neighbours ${listed(open)} point`} nowhere too`;
}

/**
 * @param {import("./machine.mjs").Machine} machine
 * @param {number} v
 */
function whyAbandon(machine, v) {
  const w = machine.pointer[v];
  if (!machine.flags) {
    return `it points at ${told(w)}, which ${whereTo(machine, w)}`;
  }
  const reasons = [machine.flag[w] === 1 && "has the flag 1", w < v && "is lower"].filter(Boolean);
  return `it points at ${told(w)}, which does not point back and ${reasons.join(" and ")}`;
}

/**
 * @param {import("./machine.mjs").Machine} machine
 * @param {number} v
 */
function whyEnabled(machine, v) {
  const right = machine.flags ? "its flag is right, " : "";
  switch (machine.rule[v]) {
    case "update":
      return machine.flag[v] === 1 ? "its flag is 1, and it is not married" : "it is married, and its flag is 0";
    case "marry": {
      const suitors = suitorsOf(machine, v);
      return `${right}it points nowhere, and ${listed(suitors)} ${suitors.length === 1 ? "points" : "point"} at it`;
    }
    case "seduce":
      return right + whySeduce(machine, v);
    case "abandon":
      return right + whyAbandon(machine, v);
  }
  return "";
}

/**
 * @param {import("./machine.mjs").Machine} machine
 * @param {number} v
 */
function whyQuiet(machine, v) {
  const w = machine.pointer[v];
  if (machine.isMarried(v)) {
    return `it and ${told(w)} point at each other${machine.flags ? ", and its flag is 1" : ""}`;
  }
  if (w !== 0) {
    return machine.flags ? `it waits for ${told(w)}, which is higher and has the flag 0` :
                           `it waits for ${told(w)}, which points nowhere`;
  }
  if (machine.neighbours[v].size === 0) {
    return "it has no neighbour";
  }
  const wanted =
    machine.flags ? "no higher neighbour points nowhere and has the flag 0" : "each neighbour points somewhere";
  return `it points nowhere, nobody points at it, and ${wanted}`;
}

/**
 * Each part with its count and reason.
 * @param {import("./machine.mjs").Machine} machine
 * @param {number} v
 */
function chargesAt(machine, v) {
  const married = machine.isMarried(v);
  return [
    machine.pointer[v] !== 0 && !married && [1, "its pointer, which is not answered"],
    machine.flags && machine.flag[v] === 0 && [1, "its flag, which is 0"],
    machine.flags && machine.flag[v] === 1 && !married && [2, "its flag, which is 1 without a partner"],
  ].filter(Boolean);
}

/**
 * @param {import("./machine.mjs").Machine} machine
 * @param {number} v
 */
function openEdgesOf(machine, v) {
  return [...machine.neighbours[v]].filter((w) => !machine.isClosed(v, w)).sort((a, b) => a - b);
}

/**
 * @param {import("./machine.mjs").Machine} machine
 * @param {number} v
 */
function chargeOfNode(machine, v) {
  const parts = chargesAt(machine, v);
  const whatFor = parts.length === 1 ?
    `, for ${parts[0][1]}` :
    parts.map(([count, part], at) => `${at === 0 ? ": " : ", "}${count} for ${part}`).join("");
  const open = openEdgesOf(machine, v);
  const edges = open.length === 0 ?
    "" :
    `; 2 for ${open.length === 1 ? "its open edge" : "each of its open edges"}, to ${listed(open)}`;
  return `${machine.nodeCharge(v)} here${whatFor}${edges}`;
}

/**
 * @param {import("./machine.mjs").Machine} machine
 * @param {number} v
 * @returns {Explained}
 */
export function explainNode(machine, v) {
  const rule = machine.rule[v];
  const suitors = suitorsOf(machine, v);
  /** @type {([string, string] | false)[]} */
  const rows = [
    ["pointer", pointerOf(machine, v)],
    machine.flags && ["flag", String(machine.flag[v])],
    ["pointed at by", suitors.length === 0 ? "nobody" : listed(suitors)],
    [
      "neighbours", machine.neighbours[v].size === 0 ? "none" : listed([...machine.neighbours[v]].sort((a, b) => a - b))
    ],
    rule ? [`may ${rule}`, `since ${whyEnabled(machine, v)}`] : ["not enabled", `since ${whyQuiet(machine, v)}`],
    ["charge", chargeOfNode(machine, v)],
  ];
  return { heading: `Node ${told(v)}`, rule, rows: /** @type {[string, string][]} */ (rows.filter(Boolean)) };
}

/**
 * @param {import("./machine.mjs").Machine} machine
 * @param {number} low
 * @param {number} high
 */
function whyClosed(machine, low, high) {
  const married = [low, high].filter((v) => machine.isMarried(v));
  if (machine.partner(low) === high) {
    return "its ends are married to each other";
  }
  if (married.length > 0) {
    return `${listed(married)} ${married.length === 1 ? "is" : "are"} married`;
  }
  if (machine.flags) {
    return `${told(low)} points at ${told(high)}, which has the flag 0`;
  }
  const waiting = [[low, high], [high, low]].find(([v, w]) => machine.awaits(v, w));
  return waiting ? `${told(waiting[0])} points at ${told(waiting[1])}, which points nowhere` :
                   "both ends point nowhere, and somebody points at each";
}

/**
 * @param {import("./machine.mjs").Machine} machine
 * @param {number} low
 * @param {number} high
 */
function whyOpen(machine, low, high) {
  if (!machine.flags) {
    return "neither end is married or waits for the other, and they are not both courted";
  }
  const pointed = machine.pointer[low] === high;
  return `neither end is married, and ${
    pointed ? `${told(high)}, at which ${told(low)} points, has the flag 1` :
              `${told(low)} does not point at ${told(high)}`}`;
}

/**
 * @param {import("./machine.mjs").Machine} machine
 * @param {number} low
 * @param {number} high
 */
function alongEdge(machine, low, high) {
  const along = [[low, high], [high, low]]
                  .filter(([v, w]) => machine.pointer[v] === w)
                  .map(([v, w]) => `${told(v)} points at ${told(w)}`);
  return along.length === 0 ? "neither end points along it" : along.join(", and ");
}

/**
 * @param {import("./machine.mjs").Machine} machine
 * @param {number} low
 * @param {number} high
 * @returns {Explained}
 */
export function explainEdge(machine, low, high) {
  const closed = machine.isClosed(low, high);
  /** @type {([string, string] | false)[]} */
  const rows = [
    ["pointers", alongEdge(machine, low, high)],
    [
      "charge",
      closed ? `0: it is closed, since ${whyClosed(machine, low, high)}` :
               `2: it is open, since ${whyOpen(machine, low, high)}`
    ],
  ];
  return { heading: `Edge ${told(low)} – ${told(high)}`, rule: null, rows: /** @type {[string, string][]} */ (rows) };
}

/**
 * @param {import("./machine.mjs").Machine} machine
 * @param {Thing | null} thing
 * @returns {Explained}
 */
export function explain(machine, thing) {
  if (thing.node) {
    const { node } = thing;
    if (!machine.here[node]) {
      return {
        heading: `Node ${told(node)}`,
        rule: null,
        rows: [["absent", `it is none of the ${counted(machine.present, "node")} of this state`]]
      };
    }
    return explainNode(machine, node);
  }
  const { low, high } = thing;
  return machine.neighbours[low].has(high) ? explainEdge(machine, low, high) : {
    heading: `Edge ${told(low)} – ${told(high)}`,
    rule: null,
    rows: [["absent", "it is none of the edges of this state"]]
  };
}
