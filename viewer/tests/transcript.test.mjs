import assert from "node:assert/strict";
import test from "node:test";
import {movesOf, nodesOf, readEntry, Transcript, TranscriptFault, wordsOf} from "../src/transcript.mjs";

test("an entry in its parts", () => {
  assert.deepEqual(readEntry("12 step 2>3 4 = 2:seduce>3 4:update"), {
    number: 12,
    event: "step 2>3 4",
    reply: "2:seduce>3 4:update",
    kind: "step",
    refused: false,
    disturbs: false,
  });
  assert.deepEqual(
    readEntry("3 enabled = none"),
    { number: 3, event: "enabled", reply: "none", kind: "enabled", refused: false, disturbs: false });
  assert.deepEqual(wordsOf(readEntry("1 point 1 - = ok")), ["1", "-"]);
});

test("a status has equal signs in its reply", () => {
  const entry = readEntry("7 status = nodes=2 edges=1 pairs=1 enabled=0 charge=0 spent=2");
  assert.equal(entry.event, "status");
  assert.equal(entry.reply, "nodes=2 edges=1 pairs=1 enabled=0 charge=0 spent=2");
});

test("which entries disturb", () => {
  const lines = [
    "1 link 1 2 = ok", "2 unlink 1 2 = ok", "3 point 1 - = ok", "4 flag 1 0 = ok", "5 link 1 1 = refused 2 self-loop",
    "6 show 1 = -", "7 step 1 = 1:update"
  ];
  assert.deepEqual(lines.map((line) => readEntry(line).disturbs), [true, true, true, true, false, false, false]);
  assert.equal(readEntry(lines[4]).refused, true);
  const comings =
    ["1 join 2 = ok", "2 leave 2 = ok", "3 join 1 = refused 13 already-present", "4 leave 9 = refused 1 unknown-node"];
  assert.deepEqual(comings.map((line) => readEntry(line).disturbs), [true, true, false, false]);
});

test("the moves of a step", () => {
  const moves = movesOf(readEntry("3 step 3 1 = 1:seduce>2 3:update"));
  assert.deepEqual(moves, [{ node: 1, rule: "seduce", target: 2 }, { node: 3, rule: "update", target: 0 }]);
});

test("the nodes that an entry names", () => {
  const named = (line) => nodesOf(readEntry(line));
  assert.deepEqual(named("1 link 2 1 = ok"), [2, 1]);
  assert.deepEqual(named("1 point 2 1 = ok"), [2]);
  assert.deepEqual(named("1 flag 2 1 = ok"), [2]);
  assert.deepEqual(named("1 step 4>2 3 = 3:update 4:seduce>2"), [3, 4]);
  assert.deepEqual(named("1 step 4>2 3 = refused 11 not-enabled"), [4, 3]);
  assert.deepEqual(named("1 step = refused 8 empty-choice"), []);
  assert.deepEqual(named("1 enabled = 1:marry"), []);
});

test("a transcript's lines by number", () => {
  const transcript = new Transcript("matching manne 65535\n1 show 1 = -\n2 enabled = none\n");
  assert.deepEqual([transcript.rules, transcript.nodes, transcript.length], ["manne", 65535, 2]);
  assert.equal(transcript.entry(2).kind, "enabled");
  assert.equal(new Transcript("matching hh 0\n").length, 0);
  assert.equal(transcript.present, 65535);
  const some = new Transcript("matching hh 3 2\n1 join 3 = ok\n");
  assert.deepEqual([some.nodes, some.present, some.length, nodesOf(some.entry(1))], [3, 2, 1, [3]]);
});

const BASE = [
  "matching2 manne 4", "base 2 spent=1 nodes=3 edges=2", "node 1 2 0", "node 2 - 1", "node 4 1 0", "edge 1 2",
  "edge 1 4"
];

test("bases among the entries are none of them", () => {
  const entries = ["1 link 1 2 = ok", "2 show 1 = -", "3 show 2 = 1", "4 enabled = none"];
  const empty = ["matching2 manne 4", "base 4 spent=0 nodes=0 edges=0"];
  const transcript = new Transcript(
    ["matching manne 4 3", ...entries.slice(0, 2), ...BASE, ...BASE, ...entries.slice(2), ...empty, ""].join("\n"));
  assert.deepEqual([transcript.first, transcript.last, transcript.length, transcript.state], [0, 4, 4, null]);
  assert.deepEqual([1, 2, 3, 4].map((number) => transcript.entry(number)), entries.map(readEntry));
  assert.deepEqual([...transcript.bases], [[2, BASE[1]], [4, empty[1]]]);
});

test("a transcript that begins with a base", () => {
  const transcript = new Transcript([...BASE, "3 show 2 = 1", ""].join("\n"));
  assert.deepEqual(
    [transcript.rules, transcript.nodes, transcript.first, transcript.last, transcript.length, transcript.spent],
    ["manne", 4, 2, 3, 1, 1]);
  assert.equal(transcript.entry(3).event, "show 2");
  const { here, pointers, flags, ends } = transcript.state;
  assert.deepEqual(
    [[...here], [...pointers], [...flags], [...ends]],
    [[0, 1, 1, 0, 1], [0, 2, 0, 0, 1], [0, 0, 1, 0, 0], [1, 2, 1, 4]]);
  assert.equal(transcript.bases.size, 0);
  assert.deepEqual(
    [
      new Transcript(`${BASE.join("\n")}\n`).length,
      new Transcript("matching2 hh 0\nbase 7 spent=0 nodes=0 edges=0\n").last
    ],
    [0, 7]);
});

test("what is no transcript is a fault of its first wrong line", () => {
  const bases = BASE.map(
    (line, at) => [at === 0 ? 1 : at + 1, [...BASE.slice(0, at), `${line} 1 1`, ...BASE.slice(at + 1), ""].join("\n")]);
  const cut = BASE.map((_, at) => [at < 2 ? 1 : at + 1, `${BASE.slice(0, at).join("\n")}\n`]);
  const texts = [
    ...bases.slice(2),
    ...cut,
    [1, ""],
    [1, "matching hh\n"],
    [1, "matching hh 2"],
    [1, "1 show 1 = -\n"],
    [1, "matching hh 65536\n"],
    [1, "matching hh 3 4\n"],
    [2, `matching hh 2\n${BASE[0]}\n1 show 1 = -\n`],
    [2, `matching hh 2\n${BASE.join("\n")}\n`],
    [2, "matching hh 2\n2 show 1 = -\n"],
    [2, "matching hh 2\n1 show 1 = -"],
    [3, "matching hh 2\n1 show 1 = -\n</script>\n"],
    [2, "matching hh 2\n1 show 1 = <b>\n"],
    [2, "matching hh 2\n1 status = nodes=2\n"],
    [2, "matching hh 2\n1 link 1 2 = ok\r\n"],
    [3, "matching2 hh 2\nbase 0 spent=0 nodes=9 edges=9\nnode 3 - 0\n"],
    [6, [...BASE.slice(0, 5), "edge 2 1", "edge 1 4", ""].join("\n")],
  ];
  for (const [line, text] of texts) {
    assert.throws(
      () => new Transcript(text),
      (wrong) => wrong instanceof TranscriptFault && wrong.line === line && wrong.message.startsWith(`line ${line} `),
      JSON.stringify(text));
  }
});

test("the line of an entry that is no fault of its form", () => {
  const transcript = new Transcript(
    [...BASE, "3 show 2 = 1", ...BASE.slice(0, 1), "base 3 spent=0 nodes=0 edges=0", "4 show 2 = 2", ""].join("\n"));
  assert.equal(transcript.fault(4, "is wrong").message, "line 11 is wrong");
});
