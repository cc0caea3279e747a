// The rule of one node, from what the node itself holds. rudekpi.d.ts documents the calls.
import {DONE, inUse, RULE_SET_NAMES} from "./engine.mjs";
import {BadView} from "./errors.mjs";
import {MOST_NODES, numberWithin, shown} from "./names.mjs";

/** @type {any[]} */
const RULES = ["", "update", "marry", "seduce", "abandon", "repair"];
const FAULTS = ["", "not-ascending", "own-neighbour", "points-at-itself", "points-at-stranger"];
const NOT_SHOWN = 9;
// a record has three 32-bit numbers, an answer six
const RECORD_WORDS = 3;
const ANSWER_WORDS = 6;
const WORD_BYTES = 4;

/**
 * @param {any} name
 * @returns {number}
 */
function numberOf(name) {
  if (numberWithin(name, MOST_NODES, "a node's name") === 0) {
    throw new RangeError(`a node's name is 1 to ${MOST_NODES}, and not 0`);
  }
  return name;
}

/**
 * @param {any} node
 * @param {any} held
 * @returns {number[]}
 */
function recordOf(node, held) {
  if (typeof held?.flag !== "boolean") {
    throw new TypeError(`node ${shown(node)} holds { pointer, flag }, its flag true or false`);
  }
  return [numberOf(node), held.pointer === null ? 0 : numberOf(held.pointer), Number(held.flag)];
}

/**
 * Puts a node's own record, its neighbours' and room for an answer into the module; calls it.
 * @param {any} own
 * @param {any} neighbours
 * @param {(own: bigint, around: bigint, count: bigint, answer: bigint) => number} call
 */
function asked(own, neighbours, call) {
  if (!(neighbours instanceof Map)) {
    throw new TypeError("neighbours are a Map from names to { pointer, flag }");
  }
  const { engine } = inUse;
  const names = [...neighbours.keys()].sort((a, b) => a - b);
  const words = [own?.node, ...names].flatMap((node, at) => recordOf(node, at === 0 ? own : neighbours.get(node)));
  const at = engine.given.of((words.length + ANSWER_WORDS) * WORD_BYTES);
  engine.wordsAt(at, words.length).set(words);
  const around = at + BigInt(RECORD_WORDS * WORD_BYTES);
  const answer = at + BigInt(words.length * WORD_BYTES);
  const status = call(at, around, BigInt(names.length), answer);
  return { status, words: engine.wordsAt(answer, ANSWER_WORDS) };
}

/** @param {any} rules */
function rulesNumber(rules) {
  const number = RULE_SET_NAMES.indexOf(rules);
  if (number < 0) {
    throw new RangeError(`rules are "hh" or "manne", and not ${shown(rules)}`);
  }
  return number;
}

/**
 * @param {any} rules
 * @param {any} own
 * @param {any} neighbours
 */
function answered(rules, own, neighbours) {
  const number = rulesNumber(rules);
  const call = inUse.engine.calls.rudekpi_local_rule;
  return asked(own, neighbours, (me, around, count, answer) => call(number, me, around, count, answer));
}

/** @param {Uint32Array} words */
function badView(words) {
  return new BadView(FAULTS[words[4]], words[5] === 0 ? null : words[5]);
}

/**
 * @param {any} rules
 * @param {any} own
 * @param {any} neighbours
 * @returns {import("../../rudekpi").LocalMove | null}
 */
export function localRule(rules, own, neighbours) {
  const { status, words } = answered(rules, own, neighbours);
  if (status !== DONE) {
    throw badView(words);
  }
  const [rule, target, pointer, flag] = words;
  if (rule === 0) {
    return null;
  }
  return { rule: RULES[rule], target: target || null, pointer: pointer || null, flag: (flag & 255) !== 0 };
}

/**
 * @param {any} rules
 * @param {any} own
 * @param {any} neighbours
 * @param {any} rule
 * @param {any} target
 */
export function mayMove(rules, own, neighbours, rule, target = null) {
  const number = rulesNumber(rules);
  const kind = RULES.indexOf(rule, 1);
  if (kind < 1 || rule === "repair") {
    throw new RangeError(`a rule is update, marry, seduce or abandon, and not ${shown(rule)}`);
  }
  const aim = target === null ? 0 : numberOf(target);
  const call = inUse.engine.calls.rudekpi_may_move;
  const { status, words } =
    asked(own, neighbours, (me, around, count, answer) => call(number, me, around, count, kind, aim, answer));
  if (status === NOT_SHOWN) {
    throw badView(answered(rules, own, neighbours).words);
  }
  // one byte is written
  return (words[0] & 255) !== 0;
}
