import assert from "node:assert/strict";
import test from "node:test";
import {View} from "../src/view.mjs";

const rounded = (view) => view.box.map((n) => Math.round(1000 * n) / 1000);

test("the whole drawing at first, and again", () => {
  const view = new View(400, 200);
  assert.deepEqual(rounded(view), [0, 0, 400, 200]);
  view.by(4, 10, 10);
  view.fit();
  assert.deepEqual([rounded(view), view.scale], [[0, 0, 400, 200], 1]);
});

test("nearer, and a place stays where it is seen", () => {
  const view = new View(400, 200);
  view.by(2);
  assert.deepEqual(rounded(view), [100, 50, 200, 100]);
  view.by(2, 150, 75);
  assert.deepEqual(rounded(view), [125, 62.5, 100, 50]);
  view.by(0.5, 150, 75);
  assert.deepEqual(rounded(view), [100, 50, 200, 100]);
});

test("not nearer than twenty times, not farther than the whole, and not beyond its borders", () => {
  const view = new View(400, 200);
  view.by(1000, 0, 0);
  assert.deepEqual([view.scale, rounded(view)], [20, [0, 0, 20, 10]]);
  view.drag(-1e6, -1e6);
  assert.deepEqual(rounded(view), [380, 190, 20, 10]);
  view.by(0.001);
  assert.deepEqual([view.scale, rounded(view)], [1, [0, 0, 400, 200]]);
  view.drag(50, 50);
  assert.deepEqual(rounded(view), [0, 0, 400, 200]);
});

test("a drag moves what is seen along with the hand", () => {
  const view = new View(400, 200);
  view.by(2);
  view.drag(10, -20);
  assert.deepEqual(rounded(view), [90, 70, 200, 100]);
});

test("what is seen well", () => {
  const view = new View(400, 200);
  view.by(2);
  assert.deepEqual(
    [view.sees(200, 100, 20), view.sees(110, 100, 20), view.sees(200, 145, 20), view.sees(10, 10, 0)],
    [true, false, false, false]);
});
