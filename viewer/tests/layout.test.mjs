import assert from "node:assert/strict";
import test from "node:test";
import {freeAngles} from "../src/drawing.mjs";
import {fill, layOut, ringOf, SPACING} from "../src/layout.mjs";

const ring = (nodes) => Array.from({ length: nodes }, (_, at) => [at + 1, ((at + 1) % nodes) + 1]);
const path = (nodes) => ring(nodes).slice(0, -1);

function nearest({ x, y }) {
  let least = Infinity;
  for (let v = 1; v < x.length; v += 1) {
    for (let w = 1; w < v; w += 1) {
      least = Math.min(least, Math.hypot(x[v] - x[w], y[v] - y[w]));
    }
  }
  return least;
}

function scattered(nodes, count) {
  const found = new Map();
  for (let draw = 1; found.size < count; draw = (draw * 48271) % 2147483647) {
    const [v, w] = [(draw % nodes) + 1, (Math.floor(draw / nodes) % nodes) + 1].sort((a, b) => a - b);
    if (v < w) {
      found.set(v * 65536 + w, [v, w]);
    }
  }
  return [...found.values()];
}

test("a ring is round: its nodes stand in order, equally far from the middle", () => {
  const { x, y, width, height } = layOut(8, ring(8));
  const far = Array.from({ length: 8 }, (_, at) => Math.hypot(x[at + 1] - width / 2, y[at + 1] - height / 2));
  far.forEach((distance) => assert.ok(Math.abs(distance - far[0]) < 1e-6));
  for (const [v, w] of ring(8)) {
    assert.ok(Math.abs(Math.hypot(x[v] - x[w], y[v] - y[w]) - SPACING) < 1e-6);
  }
});

test("what lies on a ring", () => {
  const all = (nodes) => Array.from({ length: nodes }, (_, at) => at + 1);
  assert.deepEqual(ringOf(all(5), 5, ring(5)), [1, 2, 3, 4, 5]);
  assert.deepEqual(ringOf(all(4), 4, [[2, 4], [1, 3], [1, 4], [2, 3]]), [1, 3, 2, 4]);
  assert.deepEqual(ringOf(all(4), 4, [[1, 3], [3, 2], [2, 4]]), [1, 3, 2, 4]);
  assert.deepEqual(ringOf(all(8), 8, [...ring(8), [2, 6]]), [1, 2, 3, 4, 5, 6, 7, 8]);
  assert.equal(ringOf(all(8), 8, [[2, 6], ...ring(8)]), null);
  assert.equal(ringOf(all(4), 4, [[1, 2], [1, 3], [1, 4]]), null);
});

test("every node has a place of its own, inside the box", () => {
  const networks = [
    [1, []], [2, [[1, 2]]], [7, []], [61, ring(61)], [300, ring(300)], [40, path(40)], [60, scattered(60, 110)],
    [300, scattered(300, 600)], [30, scattered(30, 20)]
  ];
  for (const [nodes, edges] of networks) {
    const layout = layOut(nodes, edges);
    const name = `${nodes} nodes, ${edges.length} edges`;
    assert.ok(nodes < 2 || nearest(layout) > SPACING / 2 + 4, `${name}: ${nearest(layout)}`);
    for (let v = 1; v <= nodes; v += 1) {
      const inside = layout.x[v] > 0 && layout.x[v] < layout.width && layout.y[v] > 0 && layout.y[v] < layout.height;
      assert.ok(inside, `${name}: node ${v} at ${layout.x[v]}, ${layout.y[v]}`);
    }
  }
});

test("the same network has the same places", () => {
  assert.deepEqual(layOut(50, scattered(50, 90)), layOut(50, scattered(50, 90)));
});

test("a long ring takes far less room than a circle", () => {
  assert.ok(layOut(300, ring(300)).width < (300 * SPACING) / Math.PI / 2);
});

test("marks stand where there is room: in one wide gap, else in the two widest", () => {
  const near = (found, wanted) =>
    found.forEach((angle, at) => assert.ok(Math.abs(angle - wanted[at]) < 1e-9, `${found}`));
  near(freeAngles([]), [-Math.PI / 4, -Math.PI / 4 + 1]);
  near(freeAngles([0]), [Math.PI - 0.5, Math.PI + 0.5]);
  near(freeAngles([0, Math.PI / 2]), [(5 * Math.PI) / 4 - 0.5, (5 * Math.PI) / 4 + 0.5]);
  near(freeAngles([0, Math.PI / 2, Math.PI, -Math.PI / 2]), [-Math.PI / 4, Math.PI / 4]);
});

test(
  "a small drawing fills the box: its nodes come to stand farther apart, and keep their places to one another", () => {
    for (const [nodes, edges] of [[2, [[1, 2]]], [5, ring(5)], [9, path(9)], [12, scattered(12, 20)]]) {
      const small = layOut(nodes, edges);
      const { x, y, width, height } = fill(small);
      assert.ok(width >= 400 && height >= 260, `${nodes} nodes: ${width} by ${height}`);
      const [wide, high] = [x, y].map((places) => Math.max(...places.slice(1)) - Math.min(...places.slice(1)));
      assert.ok(
        wide > 0.6 * width || high > 0.8 * height, `${nodes} nodes: ${wide} by ${high} of ${width} by ${height}`);
      const share = (x[2] - x[1]) / (small.x[2] - small.x[1]);
      for (let v = 1; v <= nodes; v += 1) {
        assert.ok(
          Math.abs(x[v] - x[1] - share * (small.x[v] - small.x[1])) < 1e-6
          && Math.abs(y[v] - y[1] - share * (small.y[v] - small.y[1])) < 1e-6);
        assert.ok(
          x[v] >= SPACING / 2 - 1e-6 && x[v] <= width - SPACING / 2 + 1e-6 && y[v] >= SPACING / 2 - 1e-6
          && y[v] <= height - SPACING / 2 + 1e-6);
      }
    }
  });

test("one node stands in the middle of the box, and a large drawing is left as it is", () => {
  const { x, y, width, height } = fill(layOut(1, []));
  assert.deepEqual([x[1], y[1]], [width / 2, height / 2]);
  const large = layOut(300, ring(300));
  assert.deepEqual(fill(large), large);
});
