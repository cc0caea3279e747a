// Compares the machine of the page with the program, state by state, on random scripts. After each command
// the program writes a base and is asked for the enabled nodes, the pairs and the status. The program is the
// repository's, or the one that CONSOLE names.
import assert from "node:assert/strict";
import {spawnSync} from "node:child_process";
import {existsSync} from "node:fs";
import {fileURLToPath} from "node:url";
import test from "node:test";
import {baseAt, enabledOf, pairsOf} from "./states.mjs";
import {Replay} from "../src/replay.mjs";
import {Transcript} from "../src/transcript.mjs";

const SCRIPTS = 200;
const COMMANDS = 30;
const PROGRAM = process.env.CONSOLE ?? fileURLToPath(new URL("../../crates/console/out/console", import.meta.url));

function drawn(seed) {
  let state = seed;
  return (most) => (state = (state * 48271) % 2147483647) % most;
}

function commandOf(next, nodes) {
  const name = () => 1 + next(nodes + 1);
  const kinds = [
    () => `link ${name()} ${name()}`,
    () => `link ${name()} ${name()}`,
    () => `link ${name()} ${name()}`,
    () => `unlink ${name()} ${name()}`,
    () => `point ${name()} ${name()}`,
    () => `point ${name()} -`,
    () => `flag ${name()} ${next(2)}`,
    () => `join ${name()}`,
    () => `leave ${name()}`,
    () => `step ${name()}`,
    () => `step ${name()} ${name()}`,
    () => `step ${name()}>${name()}`,
    () => `drive ${next(1000)} ${1 + next(4)}`,
    () => `scramble ${next(1000)} ${1 + next(3)}`,
  ];
  return kinds[next(kinds.length)]();
}

function scriptOf(seed) {
  const next = drawn(seed);
  const nodes = 2 + next(9);
  const present = nodes - next(2);
  const lines =
    Array.from({ length: COMMANDS }, () => `${commandOf(next, nodes)}\ncheckpoint\nenabled\nmatching\nstatus\n`);
  return {
    words: ["run", "--rules", ["hh", "manne"][seed % 2], "--nodes", `${nodes}`, "--present", `${present}`],
    text: lines.join("")
  };
}

/** The bases of a transcript, each with its number and its lines. */
function basesOf(text) {
  return [...text.matchAll(/^matching2 .*\nbase (\d+) .*\n(?:node .*\n|edge .*\n)*/gm)].map(
    (found) => ({ number: Number(found[1]), lines: found[0].trimEnd().split("\n"), at: found.index }));
}

/** Compares each base and each answer of a transcript with the machine's. Returns how many there were. */
function compare(text, seed) {
  const replay = new Replay(new Transcript(text));
  const { transcript } = replay;
  const bases = basesOf(text);
  for (const { number, lines } of bases) {
    assert.deepEqual(baseAt(replay, number), lines, `seed ${seed}, base ${number}`);
  }
  for (let number = transcript.last; number > transcript.first; number -= 1) {
    const { kind, reply } = transcript.entry(number);
    const machine = replay.goTo(number);
    const answers = {
      enabled: () => enabledOf(machine),
      matching: () => pairsOf(machine),
      status: () => machine.status(replay.valueAt("spent", number))
    };
    assert.equal(answers[kind]?.() ?? reply, reply, `seed ${seed}, entry ${number}`);
  }
  return bases;
}

test(
  "the state at each entry of 200 scripts is the program's, from the start and from a base on",
  { skip: !existsSync(PROGRAM) && `no program at ${PROGRAM}` }, () => {
    let [bases, kinds] = [0, new Set()];
    for (let seed = 1; seed <= SCRIPTS; seed += 1) {
      const { words, text } = scriptOf(seed);
      const made = spawnSync(PROGRAM, words, { input: text, encoding: "ascii", maxBuffer: 1 << 26 });
      assert.equal(made.status, 0, `seed ${seed}: ${made.stderr}`);
      const found = compare(made.stdout, seed);
      bases += found.length;
      const behind = found[seed % found.length];
      compare(made.stdout.slice(behind.at), seed);
      [...made.stdout.matchAll(/^\d+ ([a-z]+).* = (?!refused)/gm)].forEach((entry) => kinds.add(entry[1]));
    }
    assert.equal(bases, SCRIPTS * COMMANDS);
    assert.deepEqual(
      [...kinds].sort(), ["enabled", "flag", "join", "leave", "link", "matching", "point", "status", "step", "unlink"]);
  });
