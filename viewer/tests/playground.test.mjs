// Tests what the playground produces without the engine: first networks, addresses that hold a script, places
// of nodes, and sentences.
import assert from "node:assert/strict";
import test from "node:test";
import {chanceOf} from "../src/playground/chance.mjs";
import {chosenBy} from "../src/playground/choices.mjs";
import {frame, freePlace, placesOf, within} from "../src/playground/places.mjs";
import {PRESETS, presetOf} from "../src/playground/presets.mjs";
import {readAddress, writeAddress} from "../src/playground/sharing.mjs";
import {Story, toldOf} from "../src/playground/story.mjs";
import {Tools} from "../src/playground/tools.mjs";

function parts(nodes, links) {
  const root = Array.from({ length: nodes + 1 }, (_, v) => v);
  const find = (v) => (root[v] === v ? v : (root[v] = find(root[v])));
  links.forEach(([v, w]) => (root[find(v)] = find(w)));
  return new Set(Array.from({ length: nodes }, (_, at) => find(at + 1))).size;
}

test("each network has the nodes that were asked for, and edges between two of them, each once", () => {
  for (const kind of Object.keys(PRESETS)) {
    for (const size of [2, 3, 5, 16, 97, 500]) {
      const { nodes, links, places } = presetOf(kind, size, 7);
      assert.equal(nodes, size, kind);
      const keys = links.map(([v, w]) => `${Math.min(v, w)} ${Math.max(v, w)}`);
      assert.equal(new Set(keys).size, keys.length, `${kind} of ${size}`);
      assert.ok(links.every(([v, w]) => v !== w && v >= 1 && w >= 1 && v <= size && w <= size), `${kind} of ${size}`);
      assert.equal(places?.length ?? size, size, `${kind} of ${size}`);
      assert.ok((places ?? []).flat().every(Number.isFinite));
    }
  }
});

test("networks have the edges of their names", () => {
  assert.deepEqual(presetOf("ring", 4, 1).links, [[1, 2], [2, 3], [3, 4], [1, 4]]);
  assert.deepEqual(presetOf("path", 4, 1).links, [[1, 2], [2, 3], [3, 4]]);
  assert.deepEqual(presetOf("star", 4, 1).links, [[1, 2], [1, 3], [1, 4]]);
  assert.deepEqual(presetOf("grid", 6, 1).links, [[1, 2], [1, 4], [2, 3], [2, 5], [3, 6], [4, 5], [5, 6]]);
  for (const size of [5, 50, 400]) {
    assert.equal(parts(size, presetOf("random", size, 3).links), 1);
    assert.equal(presetOf("random", size, 3).links.length, Math.floor(1.5 * size));
  }
  const { links, places } = presetOf("disk", 60, 5);
  const far = ([v, w]) => Math.hypot(places[v - 1][0] - places[w - 1][0], places[v - 1][1] - places[w - 1][1]);
  const all = Array.from({ length: 60 }, (_, v) => Array.from({ length: v }, (_, w) => [w + 1, v + 1])).flat();
  const longest = Math.max(...links.map(far));
  assert.equal(all.filter((pair) => far(pair) <= longest).length, links.length);
  assert.notDeepEqual(presetOf("disk", 60, 6).places, places);
  assert.deepEqual(presetOf("disk", 60, 5).places, places);
});

test("a script goes into an address and out of it", () => {
  const lab = { rules: "manne", names: 5, present: 4, lines: ["link 1 2", "point 1 -", "step 1>2", "join 5"] };
  const address = writeAddress(lab);
  assert.equal(address, "#script=link+1+2;point+1+-;step+1%3E2;join+5&rules=manne&nodes=5&present=4");
  assert.deepEqual(readAddress(address), lab);
  assert.deepEqual(
    readAddress("#script=link+1+2%0Alink+2+7%0A"),
    { rules: "hh", names: 7, present: 7, lines: ["link 1 2", "link 2 7"] });
  assert.equal(writeAddress({...lab, lines: Array(600).fill("link 1 2") }), null);
  assert.equal(readAddress(""), null);
  assert.equal(readAddress("#17"), null);
});

test("an address that holds no script is told of", () => {
  for (const [address, said] of [
         ["#script=link+1+2&nodes=601", /nodes has to be a number from 0 to 600/],
         ["#script=&nodes=-1", /nodes has to be/],
         ["#script=&nodes=3&present=4", /present has to be a number from 0 to 3/],
         ["#script=&rules=constructor", /rules are hh or manne/],
         [`#script=${"a".repeat(4001)}`, /longer than 4000/],
  ]) {
    assert.throws(() => readAddress(address), said);
  }
});

test("nodes lie apart, inside the drawing, and newcomers where room is", () => {
  const layout = placesOf(presetOf("grid", 12, 1), 14);
  frame(layout, 2.5);
  assert.ok(Math.abs(layout.width / layout.height - 2.5) < 1e-9);
  for (let v = 1; v <= 12; v += 1) {
    assert.deepEqual(within(layout, layout.x[v], layout.y[v]), [layout.x[v], layout.y[v]]);
    for (let w = 1; w < v; w += 1) {
      assert.ok(Math.hypot(layout.x[v] - layout.x[w], layout.y[v] - layout.y[w]) > 24, `${v} and ${w}`);
    }
  }
  assert.deepEqual(within(layout, -50, 1e9), [24, layout.height - 24]);
  const [x, y] = freePlace(layout, Uint8Array.from([0, ...Array(12).fill(1), 0, 0]));
  assert.ok(layout.x.every((at, v) => v === 0 || v > 12 || Math.hypot(at - x, layout.y[v] - y) > 40));
  assert.equal(placesOf({ nodes: 3, links: [[1, 2], [2, 3]] }, 9).x.length, 10);
});

test("what happened is told in a sentence", () => {
  assert.equal(toldOf("unlink 3 7"), "The edge 3 – 7 is cut.");
  assert.equal(toldOf("point 3 -"), "Node 3 points nowhere now.");
  assert.equal(toldOf("scramble 9 1"), "1 register scrambled.");
  const place = { textContent: "", classList: { toggle: () => {} } };
  const story = new Story(place);
  story.goesOn([{ rules: "hh", moves: 12, rounds: 4, isSilent: true }], 5);
  assert.equal(place.textContent, "5 married pairs, and nothing is left to do. Now break something.");
  story.breaks("unlink 3 7", new Map([["hh", { moves: 9, rounds: 7 }]]));
  story.goesOn([{ rules: "hh", moves: 1, rounds: 0, isSilent: false }], 4);
  assert.equal(place.textContent, "The edge 3 – 7 is cut. Mending: 1 move and 0 rounds so far, of at most 9 and 7.");
  story.goesOn([{ rules: "hh", moves: 2, rounds: 1, isSilent: true }], 5);
  assert.equal(
    place.textContent, "The edge 3 – 7 is cut. Mended in 2 moves and 1 round; at most 9 and 7 could have come.");
});

test("of two networks each has its own moves, if the change concerns it", () => {
  const place = { textContent: "", classList: { toggle: () => {} } };
  const story = new Story(place);
  story.breaks("scramble 1 3", new Map([["hh", { moves: 9, rounds: 6 }], ["manne", { moves: 1200, rounds: 120 }]]));
  const at = (hh, manne, isSilent) => story.goesOn(
    [{ rules: "hh", moves: hh, rounds: 1, isSilent: true }, { rules: "manne", moves: manne, rounds: 2, isSilent }], 5);
  at(1, 4, false);
  assert.equal(
    place.textContent,
    "3 registers scrambled. Mending: Hsu and Huang 1 move and 1 round so far, of at most 9 and 6; " +
      "Manne and others 4 moves and 2 rounds so far, of at most 1,200 and 120.");
  at(1, 7, true);
  assert.equal(
    place.textContent,
    "3 registers scrambled. Mended: Hsu and Huang in 1 move and 1 round, of at most 9 and 6; " +
      "Manne and others in 7 moves and 2 rounds, of at most 1,200 and 120.");
  at(0, 0, true);
  assert.equal(place.textContent, "3 registers scrambled. Nobody had to move.");
  story.breaks("flag 3 0", new Map([["manne", { moves: 8, rounds: 5 }]]));
  at(6, 1, true);
  assert.equal(
    place.textContent, "The flag of node 3 is 0 now. Mended in 1 move and 2 rounds; at most 8 and 5 could have come.");
});

/** The neighbours of each node of a graph. */
function neighboursOf(nodes, links) {
  const near = Array.from({ length: nodes + 1 }, () => new Set());
  links.forEach(([v, w]) => (near[v].add(w), near[w].add(v)));
  return near;
}

test("a locally central choice has no two neighbours, and takes no further node", () => {
  const { links } = presetOf("random", 60, 4);
  const neighbours = neighboursOf(60, links);
  const kinds = new Set();
  for (let seed = 1; seed <= 200; seed += 1) {
    const enabled = Array.from({ length: 60 }, (_, at) => at + 1).filter((node) => (node * seed) % 7 > 2);
    const chosen = chosenBy("local", enabled, { neighbours, probability: 1, draw: chanceOf(seed) });
    assert.deepEqual(chosen, chosen.filter((node) => enabled.includes(node)).sort((a, b) => a - b));
    for (const node of enabled) {
      const near = chosen.filter((other) => neighbours[node].has(other)).length;
      assert.equal(near === 0, chosen.includes(node), `seed ${seed}, node ${node}`);
    }
    kinds.add(chosen.join());
  }
  assert.ok(kinds.size > 150, `${kinds.size} choices`);
});

test("an activation probability is the share of the enabled nodes that move, of which one does", () => {
  const enabled = Array.from({ length: 100 }, (_, at) => at + 1);
  const by = (probability, seed) => ({ neighbours: [], probability, draw: chanceOf(seed) });
  for (const probability of [0.1, 0.5, 0.9]) {
    const counts = Array.from({ length: 300 }, (_, seed) => chosenBy("chance", enabled, by(probability, seed)).length);
    const mean = counts.reduce((sum, count) => sum + count, 0) / counts.length;
    // five standard errors of the mean of 300 draws of 100 nodes
    const error = 5 * Math.sqrt((100 * probability * (1 - probability)) / 300);
    assert.ok(Math.abs(mean - 100 * probability) < error, `${probability}: ${mean}`);
  }
  assert.deepEqual(chosenBy("chance", enabled, by(1, 3)), enabled);
  const alone = Array.from({ length: 50 }, (_, seed) => chosenBy("chance", [4, 7, 9], by(0, seed)));
  assert.ok(alone.every((chosen) => chosen.length === 1));
  assert.deepEqual([...new Set(alone.flat())].sort(), [4, 7, 9]);
});

test("a tool does what it says", () => {
  const done = [];
  const note = (name) => (...words) =>
    done.push([name, ...words.filter((word) => typeof word === "string" || word === null || word?.node)]);
  const tools =
    new Tools(Object.fromEntries(["disturb", "move", "choose", "say", "settle"].map((name) => [name, note(name)])));
  const lab = {
    names: 3,
    seen: { nodes: 3, here: [0, 1, 1, 0], flag: [0, 0, 1, 0], rule: [null, "marry", null, null] }
  };
  const tap = (name, thing, place = null) => {
    tools.take(name);
    tools.tap(lab, thing, place);
  };
  tap("cut", { low: 1, high: 2 });
  tap("flag", { node: 2 });
  tap("node", { node: 1 });
  tap("move", { node: 1 });
  assert.deepEqual(
    done.filter(([name]) => name === "disturb" || name === "move"),
    [["disturb", "unlink 1 2"], ["disturb", "flag 2 0"], ["disturb", "leave 1"], ["move", "step 1"]]);
  done.length = 0;
  tools.take("node");
  tools.tap(lab, null, { x: 1, y: 2 });
  assert.deepEqual(done.at(-1), ["disturb", "join 3"]);
  tools.take("point");
  tools.pair(1, { node: 2 });
  tools.pair(1, null);
  tools.pair(1, { node: 1 });
  assert.deepEqual(done.slice(-3), [["disturb", "point 1 2"], ["disturb", "point 1 -"], ["disturb", "point 1 -"]]);
  tools.take("link");
  const before = done.length;
  tools.pair(1, null);
  assert.equal(done.length, before);
});
