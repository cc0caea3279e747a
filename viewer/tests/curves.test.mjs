import assert from "node:assert/strict";
import test from "node:test";
import {bandPath, columnsOf, meanPath, stepOf, stepPath, strideOf} from "../src/curves.mjs";
import {counted, grouped} from "../src/numbers.mjs";

test("steps of an axis", () => {
  assert.deepEqual(
    [stepOf(1, 4), stepOf(9, 4), stepOf(10, 4), stepOf(120, 4), stepOf(1500, 4), stepOf(90_000, 10)],
    [1, 5, 5, 50, 500, 10_000]);
});

test("a line holds each value until the next entry", () => {
  const values = [1, 3, 3, 2];
  assert.equal(stepPath((k) => values[k], 3, (k) => 10 * k, (value) => -value), "M0.0 -1.0H10.0V-3.0H30.0V-2.0H30.0");
  assert.equal(stepPath(() => 4, 0, () => 7, (value) => value), "M7.0 4.0H7.0");
});

test("so many entries share a column: none while each has a pixel, then as many as two pixels hold", () => {
  assert.deepEqual([strideOf(0, 600), strideOf(599, 600), strideOf(600, 600), strideOf(250_000, 600)], [1, 1, 3, 834]);
});

test(
  "columns have the least, the greatest and the mean of their entries, and the last one of those that are left", () => {
    const values = [1, 5, 3, 2, 2, 8, 7];
    assert.deepEqual(columnsOf((k) => values[k], 6, 3), [
      { middle: 1, least: 1, most: 5, mean: 3 },
      { middle: 4, least: 2, most: 8, mean: 4 },
      { middle: 6, least: 7, most: 7, mean: 7 },
    ]);
  });

test("a quarter of a million entries are a line of means and a band, of some hundred places each", () => {
  const last = 250_000;
  const columns = columnsOf((k) => (k % 2 === 0 ? 0 : 10), last, strideOf(last, 600));
  assert.ok(columns.length <= 300, `${columns.length} columns`);
  const line = meanPath(columns, (k) => k / 400, (value) => value);
  const heights = line.slice(1).split("L").map((place) => Number(place.split(" ")[1]));
  assert.ok(heights.every((height) => Math.abs(height - 5) < 0.2), "the line lies in the middle");
  const band = bandPath(columns, (k) => k / 400, (value) => value);
  assert.equal(band.slice(1, -1).split("L").length, 2 * columns.length);
  assert.ok(band.startsWith("M1.0 10.0L") && band.endsWith("L1.0 0.0Z"), band.slice(0, 40));
});

test("digits are grouped by commas, and a noun goes with its count", () => {
  assert.deepEqual([0, 999, 1000, 65535, 16777216].map(grouped), ["0", "999", "1,000", "65,535", "16,777,216"]);
  assert.deepEqual(
    [counted(1, "entry", "entries"), counted(2000, "entry", "entries"), counted(0, "node"), counted(1, "node")],
    ["1 entry", "2,000 entries", "0 nodes", "1 node"]);
});
