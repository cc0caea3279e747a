// Compares the texts on nodes and edges with sentences written by hand from the rules.
import assert from "node:assert/strict";
import test from "node:test";
import {transcriptsOfCases, transcriptsOfExamples} from "./cases.mjs";
import {explain, explainEdge, explainNode, listed} from "../src/explain.mjs";
import {distanceToStretch, thingAt} from "../src/hit.mjs";
import {Machine} from "../src/machine.mjs";
import {Replay} from "../src/replay.mjs";
import {Transcript} from "../src/transcript.mjs";

/** A network with these edges, pointers (`v: w`) and flagged nodes. */
function network(rules, nodes, edges, pointers = {}, flagged = []) {
  const machine = new Machine(rules, nodes);
  edges.forEach(([v, w]) => machine.link(v, w));
  flagged.forEach((v) => machine.write(v, 0, 1));
  Object.entries(pointers).forEach(([v, w]) => machine.write(Number(v), w, machine.flag[v]));
  return machine;
}

function told(machine, v) {
  const { rule, rows } = explainNode(machine, v);
  return { rule, ...Object.fromEntries(rows) };
}

const path = (nodes) => Array.from({ length: nodes - 1 }, (_, at) => [at + 1, at + 2]);

test("the guards of Hsu and Huang's rules in words", () => {
  const machine = network("hh", 7, [...path(6), [1, 3]], { 1: 2, 3: 4, 4: 5, 5: 4 });
  assert.equal(told(machine, 2)["may marry"], "since it points nowhere, and 1 points at it");
  assert.equal(told(machine, 1)["not enabled"], "since it waits for 2, which points nowhere");
  assert.equal(told(machine, 3)["may abandon"], "since it points at 4, which points at 5");
  assert.equal(told(machine, 4)["not enabled"], "since it and 5 point at each other");
  assert.equal(
    told(machine, 6)["not enabled"],
    "since it points nowhere, nobody points at it, and each neighbour points somewhere");
  assert.equal(told(machine, 7)["not enabled"], "since it has no neighbour");
  const fresh = network("hh", 4, [...path(4), [2, 4]]);
  assert.equal(
    told(fresh, 1)["may seduce"],
    "since it points nowhere, nobody points at it, and its neighbour 2 points nowhere too");
  assert.equal(
    told(fresh, 2)["may seduce"],
    "since it points nowhere, nobody points at it, and its neighbours 1, 3 and 4 point nowhere too");
  assert.equal(
    told(network("hh", 3, path(3), { 1: 2, 3: 2 }), 2)["may marry"],
    "since it points nowhere, and 1 and 3 point at it");
});

test("the guards of Manne's rules in words", () => {
  const machine = network("manne", 6, [...path(6), [2, 4]], { 1: 2, 5: 4 });
  assert.equal(told(machine, 2)["may marry"], "since its flag is right, it points nowhere, and 1 points at it");
  assert.equal(told(machine, 1)["not enabled"], "since it waits for 2, which is higher and has the flag 0");
  assert.equal(
    told(machine, 3)["may seduce"],
    "since its flag is right, it points nowhere, nobody points at it, and 4 is the highest neighbour above it that points nowhere and has the flag 0");
  assert.equal(
    told(machine, 5)["may abandon"], "since its flag is right, it points at 4, which does not point back and is lower");
  assert.equal(
    told(machine, 6)["not enabled"],
    "since it points nowhere, nobody points at it, and no higher neighbour points nowhere and has the flag 0");
  const flagged = network("manne", 4, path(4), { 1: 2, 3: 2 }, [2, 4]);
  assert.equal(
    told(flagged, 1)["may abandon"],
    "since its flag is right, it points at 2, which does not point back and has the flag 1");
  assert.equal(
    told(flagged, 3)["may abandon"],
    "since its flag is right, it points at 2, which does not point back and has the flag 1 and is lower");
  assert.equal(told(flagged, 4)["may update"], "since its flag is 1, and it is not married");
  const pair = network("manne", 2, path(2), { 1: 2, 2: 1 }, [1]);
  assert.equal(told(pair, 2)["may update"], "since it is married, and its flag is 0");
  assert.equal(told(pair, 1)["not enabled"], "since it and 2 point at each other, and its flag is 1");
});

test("registers, who points at a node, and its neighbours", () => {
  const machine = network("manne", 4, [[1, 3], [2, 3], [3, 4]], { 1: 3, 2: 3 }, [4]);
  assert.deepEqual(
    [told(machine, 3).pointer, told(machine, 3).flag, told(machine, 3)["pointed at by"], told(machine, 3).neighbours],
    ["null: it points nowhere", "0", "1 and 2", "1, 2 and 4"]);
  assert.deepEqual(
    [told(machine, 1).pointer, told(machine, 4).flag, told(machine, 4)["pointed at by"]],
    ["at 3, which does not point back", "1", "nobody"]);
  const pair = network("hh", 2, path(2), { 1: 2, 2: 1 });
  assert.deepEqual(
    [told(pair, 1).pointer, told(pair, 1).flag], ["at 2, which points back: they are married", undefined]);
});

test("what the charge counts at a node", () => {
  const machine = network("hh", 4, path(4), { 2: 1 });
  assert.equal(told(machine, 2).charge, "1 here, for its pointer, which is not answered; 2 for its open edge, to 3");
  assert.equal(told(machine, 3).charge, "0 here; 2 for each of its open edges, to 2 and 4");
  const flags = network("manne", 3, path(3), { 1: 2 }, [1, 2]);
  assert.equal(
    told(flags, 1).charge,
    "3 here: 1 for its pointer, which is not answered, 2 for its flag, which is 1 without a partner; 2 for its open edge, to 2");
  assert.equal(told(flags, 3).charge, "1 here, for its flag, which is 0; 2 for its open edge, to 2");
  assert.equal(told(network("manne", 2, path(2), { 1: 2, 2: 1 }, [1, 2]), 1).charge, "0 here");
});

test("what is told of an edge, and why it is open or closed", () => {
  const charge = (machine, low, high) => Object.fromEntries(explainEdge(machine, low, high).rows).charge;
  const hh = network("hh", 8, [...path(6), [7, 8], [6, 7]], { 1: 2, 2: 1, 4: 3, 5: 6, 6: 5, 7: 8, 8: 7 });
  assert.equal(charge(hh, 1, 2), "0: it is closed, since its ends are married to each other");
  assert.equal(charge(hh, 2, 3), "0: it is closed, since 2 is married");
  assert.equal(charge(hh, 3, 4), "0: it is closed, since 4 points at 3, which points nowhere");
  assert.equal(charge(hh, 6, 7), "0: it is closed, since 6 and 7 are married");
  const courted = network("hh", 4, path(4), { 1: 2, 4: 3 });
  assert.equal(charge(courted, 2, 3), "0: it is closed, since both ends point nowhere, and somebody points at each");
  assert.equal(
    charge(network("hh", 2, path(2)), 1, 2),
    "2: it is open, since neither end is married or waits for the other, and they are not both courted");
  const manne = network("manne", 4, path(4), { 1: 2, 3: 4 }, [4]);
  assert.equal(charge(manne, 1, 2), "0: it is closed, since 1 points at 2, which has the flag 0");
  assert.equal(charge(manne, 2, 3), "2: it is open, since neither end is married, and 2 does not point at 3");
  assert.equal(
    charge(manne, 3, 4), "2: it is open, since neither end is married, and 4, at which 3 points, has the flag 1");
  const pointers = (machine, low, high) => Object.fromEntries(explainEdge(machine, low, high).rows).pointers;
  assert.deepEqual(
    [pointers(manne, 1, 2), pointers(manne, 2, 3), pointers(hh, 1, 2)],
    ["1 points at 2", "neither end points along it", "1 points at 2, and 2 points at 1"]);
});

test("what is not there", () => {
  const machine = new Machine("hh", 3, 2);
  assert.deepEqual(explain(machine, { node: 3 }).rows, [["absent", "it is none of the 2 nodes of this state"]]);
  assert.deepEqual(explain(machine, { low: 1, high: 2 }).rows, [["absent", "it is none of the edges of this state"]]);
  assert.equal(explain(machine, { node: 2 }).heading, "Node 2");
  assert.equal(
    listed(Array.from({ length: 15 }, (_, at) => at + 1)), "1, 2, 3, 4, 5, 6, 7, 8, 9, 10, 11, 12 and 3 more");
});

test(
  "what is told of all nodes and edges adds up to the charge that the program tells, and names the rules that it lists",
  () => {
    let compared = 0;
    for (const { name, text } of [...transcriptsOfCases(), ...transcriptsOfExamples()]) {
      const replay = new Replay(new Transcript(text));
      const { transcript } = replay;
      for (let number = transcript.first + 1; number <= transcript.last; number += 1) {
        const entry = transcript.entry(number);
        if (entry.kind === "status") {
          const machine = replay.goTo(number);
          const nodes = [...machine.here.keys()]
                          .filter((v) => machine.here[v])
                          .map((v) => Number.parseInt(told(machine, v).charge, 10));
          const edges =
            machine.edges().map(([low, high]) => Number.parseInt(explainEdge(machine, low, high).rows[1][1], 10));
          const sum = [...nodes, ...edges].reduce((one, other) => one + other, 0);
          assert.equal(sum, Number(/charge=(\d+)/.exec(entry.reply)[1]), `${name}, entry ${number}`);
          compared += 1;
        }
        if (entry.kind === "enabled" && entry.reply !== "none") {
          const machine = replay.goTo(number);
          const rules = entry.reply.split(" ").map((word) => word.split(":"));
          rules.forEach(
            ([v, rule]) => assert.match(
              told(machine, Number(v))[`may ${rule}`], /^since it|^since its flag/, `${name}, entry ${number}`));
        }
      }
    }
    assert.ok(compared > 50, `${compared} states`);
  });

test("which node or edge lies at a place", () => {
  const machine = network("hh", 4, [[1, 2], [2, 3]]);
  machine.leave(4);
  const layout = { x: [0, 0, 100, 100, 50], y: [0, 0, 0, 100, 50] };
  const at = (x, y) => thingAt(layout, machine, x, y, 12, 6);
  assert.deepEqual(
    [at(0, 0), at(10, 14), at(50, 5), at(95, 50), at(50, 50), at(50, -7), at(118, 0)],
    [{ node: 1 }, { node: 1 }, { low: 1, high: 2 }, { low: 2, high: 3 }, null, null, { node: 2 }]);
  assert.equal(distanceToStretch(3, 4, [0, 0], [0, 0]), 5);
  assert.equal(distanceToStretch(20, 3, [0, 0], [10, 0]), Math.hypot(10, 3));
});
