// What an entry does to a machine.
import {lastOf} from "./lists.mjs";
import {movesOf, wordsOf} from "./transcript.mjs";

/**
 * Whether an entry changes the state: an accepted edit or fault, or a step.
 * @param {Entry} entry
 */
export function changes(entry) {
  return entry.disturbs || (entry.kind === "step" && !entry.refused);
}

/** @param {Entry} entry */
function namesOf(entry) {
  return wordsOf(entry).map((word) => (word === "-" ? 0 : Number(word)));
}

/**
 * `target` is 0 if the rule takes none.
 * @param {import("./machine.mjs").Machine} machine
 * @param {Move} move
 */
function mayMove(machine, { node, rule, target }) {
  if (machine.rule[node] !== rule) {
    return false;
  }
  if (rule === "marry") {
    return machine.pointer[target] === node;
  }
  if (rule === "seduce") {
    const open = machine.openNeighbours(node);
    return machine.flags ? lastOf(open) === target : open.includes(target);
  }
  return target === 0;
}

/**
 * @param {import("./machine.mjs").Machine} machine
 * @param {Move[]} moves
 */
function mayStep(machine, moves) {
  const nodes = new Set(moves.map((move) => move.node));
  return nodes.size === moves.length && (machine.flags || moves.length === 1)
    && moves.every((move) => mayMove(machine, move));
}

/**
 * Whether the machine may accept an entry that changes the state.
 * @param {import("./machine.mjs").Machine} machine
 * @param {Entry} entry
 */
export function isPossible(machine, entry) {
  if (entry.kind === "step") {
    return mayStep(machine, movesOf(entry));
  }
  const [node, other] = namesOf(entry);
  const here = machine.here[node] === 1;
  switch (entry.kind) {
    case "link":
      return here && node !== other && machine.here[other] === 1 && !machine.neighbours[node].has(other);
    case "unlink":
      return here && machine.neighbours[node].has(other);
    case "point":
      return here && (other === 0 || machine.neighbours[node].has(other));
    case "flag":
      return here && machine.flags;
    case "join":
      return machine.here[node] === 0 && node > 0;
    case "leave":
      return here;
  }
  return false;
}

/**
 * @param {import("./machine.mjs").Machine} machine
 * @param {Entry} entry
 */
export function carryOut(machine, entry) {
  if (entry.kind === "step") {
    machine.step(movesOf(entry));
    return;
  }
  const [node, other] = namesOf(entry);
  switch (entry.kind) {
    case "link":
      return machine.link(node, other);
    case "unlink":
      return machine.unlink(node, other);
    case "point":
      return machine.write(node, other, machine.flag[node]);
    case "flag":
      return machine.write(node, machine.pointer[node], other);
    case "join":
      return machine.join(node);
    case "leave":
      return machine.leave(node);
  }
}
