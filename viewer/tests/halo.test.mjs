// Tests reach, rest and possible moves: what the page asks the engine, and how it uses the answers. All
// values are worked out by hand from the table in docs/BOUNDS.md.
import assert from "node:assert/strict";
import test from "node:test";
import {engineOfPage, program, whatIsMissing} from "./wasm.mjs";
import {linesAt, linesBetween} from "../src/playground/halo.mjs";
import {Lab} from "../src/playground/lab.mjs";
import {sharesOf} from "../src/playground/pane.mjs";

const skip = whatIsMissing();
// 1 - 2 = 3 - 4 - 5 = 6: 2 and 3 are a pair, and 5 and 6; all neighbours of 1 and 4 are married
const LINKS = ["link 1 2", "link 2 3", "link 3 4", "link 4 5", "link 5 6"];
const SETTLED = {
  hh: [...LINKS, "step 2>3", "step 3", "step 5>6", "step 6"],
  manne: [...LINKS, "step 2>3", "step 3", "step 5>6", "step 6", "drive 1 9"]
};
const SCHEDULES = 60;
/** @type {[string, number[]][]} */
const REACHED = [
  ["unlink 2 3", [1, 2, 3, 4]],
  ["unlink 5 6", [4, 5, 6]],
  ["unlink 3 4", []],
  ["unlink 1 4", []],
  ["leave 2", [3, 4]],
  ["leave 5", [6]],
  ["leave 1", []],
  ["point 2 1", [1, 2, 3, 4]],
  ["point 2 -", [1, 2, 3, 4]],
  ["point 2 3", []],
  ["point 4 5", [4]],
  ["point 4 -", []],
  ["link 1 4", [1, 4]],
  ["link 1 3", []],
  ["join 7", []],
];
/** @type {Record<string, [string, number[]][]>} */
const FLAGS = {
  hh: [["flag 2 0", []], ["flag 1 1", []]],
  manne: [["flag 2 0", [2]], ["flag 2 1", []], ["flag 1 1", [1]], ["flag 1 0", []]]
};

async function settled(rules) {
  const lab = new Lab(await engineOfPage(), { rules, names: 7, present: 6 });
  lab.replay(SETTLED[rules]);
  assert.equal(lab.seen.enabledCount, 0);
  assert.deepEqual([2, 5].map((v) => lab.seen.partner(v)), [3, 6]);
  return lab;
}

function restless(lab) {
  return [...lab.seen.restless.keys()].filter((v) => lab.seen.restless[v]);
}

/** The nodes that move in a transcript after its last edit or fault. */
function moversOf(text) {
  const last = text.trimEnd().split("\n").findLastIndex((line) => / = ok$/.test(line));
  const steps = text.trimEnd().split("\n").slice(last).filter((line) => line.includes(" step "));
  return steps.flatMap((line) => [...line.split(" = ")[1].matchAll(/(\d+):/g)].map(([, v]) => Number(v)));
}

for (const rules of ["hh", "manne"]) {
  test(`whom each edit and fault reaches, under ${rules}`, { skip }, async () => {
    const lab = await settled(rules);
    const before = lab.transcript;
    for (const [line, reached] of [...REACHED, ...FLAGS[rules]]) {
      assert.deepEqual(lab.reachOf([line]), reached, line);
    }
    assert.deepEqual(lab.reachOf(["unlink 5 6", "leave 2", "leave 2"]), [3, 4, 5, 6]);
    assert.deepEqual(lab.reachOf([]), []);
    assert.deepEqual([lab.transcript, restless(lab)], [before, []]);
    lab.free();
  });

  test(`once it is done, nobody else moves in ${SCHEDULES} schedules each, under ${rules}`, { skip }, async () => {
    const lab = await settled(rules);
    let moved = 0;
    for (const [line, reached] of [...REACHED, ...FLAGS[rules]]) {
      for (let seed = 1; seed <= SCHEDULES; seed += 1) {
        const script = [...SETTLED[rules], line, `drive ${seed} 100`].map((it) => `${it}\n`).join("");
        const { text } = program(["run", "--rules", rules, "--nodes", "7", "--present", "6"], script);
        const done = text.trimEnd().split("\n").some((entry) => entry.includes(` ${line} = ok`));
        const movers = done ? moversOf(text) : [];
        assert.deepEqual(movers.filter((v) => !reached.includes(v)), [], `${line}, seed ${seed}`);
        moved += movers.length;
      }
    }
    assert.ok(moved > 10 * SCHEDULES, `${moved} moves`);
    lab.free();
  });
}

test("who may still move: those who are not at rest, fewer with each move", { skip }, async () => {
  const lab = await settled("hh");
  const told = [];
  for (const line of ["unlink 2 3", "step 2>1", "step 1", "step 3>4", "step 4"]) {
    lab.feed(line);
    lab.look();
    told.push(restless(lab));
  }
  assert.deepEqual(told, [[1, 2, 3, 4], [1, 2, 3, 4], [3, 4], [3, 4], []]);
  lab.free();
});

test("a reach of more nodes than were given room, in a star of 200", { skip }, async () => {
  const lab = new Lab(await engineOfPage(), { rules: "hh", names: 200, present: 200 });
  const others = Array.from({ length: 199 }, (_, at) => at + 2);
  lab.replay([...others.map((v) => `link 1 ${v}`), "step 1>2", "step 2"]);
  assert.deepEqual(lab.reachOf(["leave 2"]), [1, ...others.slice(1)]);
  assert.deepEqual(lab.reachOf(["unlink 1 2"]), [1, ...others]);
  lab.free();
});

test("how many moves can come: the charge, and under hh no more than the nodes allow", { skip }, async () => {
  const ends = [[1, 2], [1, 3], [1, 4], [2, 3], [2, 4], [3, 4]];
  const lines = ends.map((edge) => `link ${edge.join(" ")}`);
  // four nodes that point round. hh: 2 for each of six edges and 1 for each pointer are 16, and 16/2 + 4 - 2
  // are 10. manne: 2 for each of the three edges whose lower end does not point along it, 1 for each pointer
  // and for each flag
  const round = ["point 1 2", "point 2 3", "point 3 4", "point 4 1"];
  for (const [rules, charge, left, bound] of [["hh", 16, 10, 10], ["manne", 14, 14, 24]]) {
    const lab = new Lab(await engineOfPage(), { rules, names: 4, present: 4 });
    lab.replay([...lines, ...round]);
    const { seen } = lab;
    assert.deepEqual([seen.charge, seen.movesLeft, seen.epochBound, seen.spent], [charge, left, bound, 0], rules);
    lab.feed("drive 1 100");
    lab.look();
    assert.deepEqual([lab.seen.enabledCount, lab.seen.movesLeft], [0, 0], "none can come once no rule is enabled");
    lab.free();
  }
});

test("what a click is about to do, by the tool in hand", () => {
  const seen = { flag: [0, 0, 1], neighbours: [[], [2, 3], [1], [1]].map((others) => new Set(others)) };
  const at = (name, thing, from = null) => linesAt({ name, from }, seen, thing);
  const link = { low: 1, high: 2 };
  assert.deepEqual(at("cut", link), ["unlink 1 2"]);
  assert.deepEqual(["link", "point", "flag", "node", "move"].flatMap((name) => at(name, link)), []);
  assert.deepEqual(at("node", { node: 2 }), ["leave 2"]);
  assert.deepEqual([1, 2].flatMap((node) => at("flag", { node })), ["flag 1 1", "flag 2 0"]);
  assert.deepEqual(at("point", { node: 1 }), ["point 1 -", "point 1 2", "point 1 3"]);
  assert.deepEqual(["cut", "link", "move"].flatMap((name) => at(name, { node: 1 })), []);
  assert.deepEqual(["cut", "node", "flag", "point"].flatMap((name) => at(name, null)), []);
  assert.deepEqual(at("point", { node: 3 }, 1), ["point 1 3"]);
  assert.deepEqual(at("point", { node: 1 }, 1), ["point 1 -"]);
  assert.deepEqual(at("link", { node: 2 }, 3), ["link 3 2"]);
  assert.deepEqual(at("link", { node: 3 }, 3), []);
  assert.deepEqual(linesBetween("point", 1, null), ["point 1 -"]);
  assert.deepEqual(linesBetween("link", 1, null), []);
});

test("the bar: spent moves and those to come, and never more than its bound", () => {
  assert.deepEqual(sharesOf(0, 10, 10), { spent: 0, left: 1 });
  assert.deepEqual(sharesOf(5, 10, 20), { spent: 0.25, left: 0.5 });
  // 16 of 22 were spent: of the 10 that the state allows, at most 6 come in this epoch
  assert.deepEqual(sharesOf(16, 10, 22), { spent: 16 / 22, left: 6 / 22 });
  assert.deepEqual(sharesOf(0, 0, 0), { spent: 0, left: 0 });
});
