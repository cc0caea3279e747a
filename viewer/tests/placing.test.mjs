import assert from "node:assert/strict";
import test from "node:test";
import {bestBox} from "../src/placing.mjs";

const ROOM = {
  left: 10,
  top: 20,
  right: 810,
  bottom: 520
};
const SIZE = {
  width: 300,
  height: 200
};
const counting = (places) => ({ left, top, width, height }) =>
  places.filter(([x, y]) => x >= left && x <= left + width && y >= top && y <= top + height).length / places.length;

test("a card stands right of what it tells of, left where there is no room, and in the room", () => {
  assert.deepEqual(bestBox({ x: 200, y: 200 }, ROOM, SIZE, () => 0), { left: 222, top: 200 - 200 / 3, ...SIZE });
  assert.equal(bestBox({ x: 700, y: 200 }, ROOM, SIZE, () => 0).left, 700 - 22 - 300);
  for (const [x, y] of [[10, 20], [810, 520], [10, 520], [810, 20], [400, 270]]) {
    const { left, top } = bestBox({ x, y }, ROOM, SIZE, () => 0);
    assert.ok(left >= 14 && left + 300 <= 806 && top >= 24 && top + 200 <= 516, `${x} ${y}: ${left} ${top}`);
    assert.equal(counting([[x, y]])({ left, top, ...SIZE }), 0, `${x} ${y}`);
  }
});

test("it goes where it covers less, and never over what it tells of while there is room", () => {
  const crowd = Array.from({ length: 30 }, (_, at) => [240 + 10 * at, 200]);
  const box = bestBox({ x: 200, y: 200 }, ROOM, SIZE, counting([...crowd, [200, 200]]));
  assert.equal(counting([...crowd, [200, 200]])(box), 0);
  const strip = Array.from({ length: 300 }, (_, at) => [400 + at, 30 + 160 * (at % 4)]);
  const near = bestBox({ x: 600, y: 270 }, ROOM, SIZE, counting(strip));
  const far =
    Math.hypot(Math.max(near.left - 600, 600 - near.left - 300, 0), Math.max(near.top - 270, 270 - near.top - 200, 0));
  assert.ok(far < 260 && counting(strip)(near) < 0.2, `${far} ${counting(strip)(near)}`);
});

test("in a room that is too small it stands at the border", () => {
  const { left, top } = bestBox({ x: 50, y: 50 }, { left: 0, top: 0, right: 200, bottom: 100 }, SIZE, () => 0);
  assert.deepEqual([left, top], [4, 4]);
});
