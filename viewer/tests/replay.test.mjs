// Compares the replay with the repository's case files, examples, README and docs/USE.md, whose replies were
// found by hand.
import assert from "node:assert/strict";
import test from "node:test";
import {readFileSync} from "node:fs";
import {picturesOfCases, transcriptsOfCases, transcriptsOfExamples} from "./cases.mjs";
import {baseAt, enabledOf, pairsOf} from "./states.mjs";
import {Machine, mostAmong} from "../src/machine.mjs";
import {carryOut} from "../src/entries.mjs";
import {Replay} from "../src/replay.mjs";
import {readEntry, Transcript} from "../src/transcript.mjs";

function answer(replay, entry) {
  const machine = replay.goTo(entry.number);
  switch (entry.kind) {
    case "status":
      return machine.status(replay.valueAt("spent", entry.number));
    case "enabled":
      return enabledOf(machine);
    case "matching":
      return pairsOf(machine);
    case "show":
      return String(machine.pointer[Number(entry.event.slice(5))] || "-");
  }
  return null;
}

const replays = [...transcriptsOfCases(), ...transcriptsOfExamples()].map(
  (found) => ({...found, replay: new Replay(new Transcript(found.text)) }));

test("there are enough transcripts to compare with", () => {
  assert.ok(replays.length > 60, `${replays.length} transcripts`);
  const questions = replays.flatMap(
    ({ replay: { transcript } }) =>
      Array.from({ length: transcript.length }, (_, at) => transcript.entry(transcript.first + at + 1)));
  const asked = (kind) => questions.filter((entry) => entry.kind === kind && !entry.refused).length;
  assert.ok(asked("status") > 50 && asked("enabled") > 50 && asked("matching") > 20 && asked("show") > 20);
});

for (const { name, text, audited, replay } of replays) {
  test(`questions of ${name}`, () => {
    const { transcript } = replay;
    for (let number = transcript.last; number > transcript.first; number -= 1) {
      const entry = transcript.entry(number);
      const told = entry.refused ? null : answer(replay, entry);
      if (told !== null) {
        assert.equal(told, entry.reply, `entry ${number}`);
      }
    }
    assert.equal(transcript.length, text.match(/^\d/gm)?.length ?? 0);
  });

  test(`the budget of ${name}`, () => {
    const { charge, spent } = replay.series;
    let moves = 0;
    charge.forEach((value, place) => {
      const number = replay.transcript.first + place;
      assert.ok(value + spent[place] <= replay.boundByEdges(number), `place ${place}`);
      assert.ok(spent[place] <= replay.bound(number), `place ${place}: the moves of the epoch`);
      assert.ok(replay.movesLeft(number) <= Math.min(value, replay.bound(number)), `place ${place}: moves to come`);
      moves += place > 0 && spent[place] > spent[place - 1] ? spent[place] - spent[place - 1] : 0;
    });
    assert.equal(replay.moves, moves);
    if (audited) {
      assert.equal(replay.verdict, audited);
    }
  });
}

for (const { name, text, replay } of replays.filter((found) => found.replay.transcript.first === 0)) {
  test(`bases in ${name}, and at its beginning`, () => {
    const { length } = replay.transcript;
    const lines = text.trimEnd().split("\n").filter((line) => !/^(matching2|base|node|edge) /.test(line));
    for (const number of new Set([0, length >> 1, length])) {
      const [before, base, behind] = [lines.slice(0, number + 1), baseAt(replay, number), lines.slice(number + 1)];
      const whole = new Replay(new Transcript(`${[...before, ...base, ...base, ...behind].join("\n")}\n`));
      const rest = new Replay(new Transcript(`${[...base, ...behind].join("\n")}\n`));
      assert.deepEqual([whole.transcript.length, rest.transcript.length], [length, length - number]);
      // a base has no rounds: until the next edit or fault they are counted from there
      const anew = replay.disturbances.find((each) => each > number) ?? length + 1;
      for (const name of Object.keys(replay.series)) {
        const from = name === "rounds" ? anew : number;
        assert.deepEqual(whole.series[name], replay.series[name], name);
        assert.deepEqual(rest.series[name].slice(from - number), replay.series[name].slice(from), name);
      }
      for (let at = number; at < anew; at += 1) {
        const since = replay.valueAt("rounds", at) - replay.valueAt("rounds", number);
        const fewer = since - rest.valueAt("rounds", at);
        assert.ok(fewer === 0 || fewer === 1, `entry ${at}: ${since} rounds since the base`);
      }
      assert.deepEqual(whole.edgesEver, replay.edgesEver);
      assert.deepEqual(rest.disturbances, replay.disturbances.filter((each) => each > number));
      for (const at of [length, number, (number + length) >> 1]) {
        const [one, other] = [replay.goTo(at), rest.goTo(at)];
        assert.equal(enabledOf(one), enabledOf(other), `entry ${at}`);
        assert.deepEqual([one.here, one.pointer, one.flag], [other.here, other.pointer, other.flag], `entry ${at}`);
      }
    }
  });
}

/** The lines up to that of an entry; the lines after it must change none of their values. */
function upTo(text, entry) {
  const lines = text.split("\n");
  const at = lines.findIndex((line) => line.startsWith(`${entry} `));
  return at < 0 ? text : `${lines.slice(0, at + 1).join("\n")}\n`;
}

for (const { name, entry, text, picture } of picturesOfCases()) {
  test(`the picture of ${name}`, () => {
    const replay = new Replay(new Transcript(upTo(text, entry)));
    const machine = replay.goTo(Number(entry ?? replay.transcript.last));
    const lines = ["graph matching {"];
    for (let v = 1; v <= machine.nodes; v += 1) {
      if (!machine.here[v]) {
        continue;
      }
      const rule = machine.rule[v] ? `\\n${machine.rule[v]}` : "";
      lines.push(`${v} [label="${v}${rule}"${machine.isMarried(v) ? ", style=filled" : ""}];`);
    }
    for (const [v, w] of machine.edges().sort((a, b) => a[0] - b[0] || a[1] - b[1])) {
      const arrow = machine.pointer[v] === w ? " [dir=forward]" : machine.pointer[w] === v ? " [dir=back]" : "";
      lines.push(`${v} -- ${w}${machine.partner(v) === w ? " [style=bold]" : arrow};`);
    }
    assert.equal(`${[...lines, "}"].join("\n")}\n`, picture);
  });
}

test("there are pictures to compare with", () => {
  assert.ok([...picturesOfCases()].length > 8);
});

test("the budget of the ring of three of docs/USE.md: from its charge 9 to silence in 3 moves", () => {
  const events = ["link 1 2", "link 2 3", "link 1 3", "point 1 2", "point 2 3", "point 3 1"].map(
    (event, at) => `${at + 1} ${event} = ok`);
  const text =
    ["matching hh 3", ...events, "7 step 1 = 1:abandon", "8 step 2 = 2:abandon", "9 step 1 = 1:marry>3", ""].join("\n");
  const replay = new Replay(new Transcript(text));
  const { series, disturbances } = replay;
  assert.deepEqual([...series.charge], [0, 2, 4, 6, 5, 6, 9, 6, 5, 0]);
  assert.deepEqual([...series.spent], [0, 0, 0, 0, 0, 0, 0, 1, 2, 3]);
  assert.deepEqual([...series.pairs], [0, 0, 0, 0, 0, 0, 0, 0, 0, 1]);
  // three nodes have at most 9/2 + 3 - 2 moves, the half rounded down, which is less than 2m + n from two
  // edges on
  const numbers = [...series.charge.keys()];
  assert.deepEqual(numbers.map((number) => replay.bound(number)), [3, 5, 5, 5, 5, 5, 5, 5, 5, 5]);
  assert.deepEqual(numbers.map((number) => replay.movesLeft(number)), [0, 2, 4, 5, 5, 5, 5, 5, 5, 0]);
  assert.deepEqual(numbers.filter((number) => replay.isBoundByNodes(number)), [2, 3, 4, 5, 6, 7, 8, 9]);
  assert.deepEqual(disturbances, [1, 2, 3, 4, 5, 6]);
});

test("the bounds that docs/USE.md tells of a network of 1,000 nodes and 3,000 edges", () => {
  for (const [rules, bound] of [["hh", 7000], ["manne", 9000]]) {
    const links = Array.from(
      { length: 3000 },
      (_, at) => `${at + 1} link ${(at % 1000) + 1} ${((at + 1 + Math.floor(at / 1000)) % 1000) + 1} = ok`);
    const replay = new Replay(new Transcript(`matching ${rules} 1000\n${links.join("\n")}\n`));
    assert.equal(replay.bound(3000), bound);
    assert.equal(replay.machine.bound, bound);
  }
});

test("a step goes where its reply tells, and not to the least target", () => {
  const replay = new Replay(
    new Transcript("matching hh 3\n1 link 1 2 = ok\n2 link 2 3 = ok\n3 step 2 = 2:seduce>3\n4 step 3 = 3:marry>2\n"));
  assert.equal(pairsOf(replay.goTo(4)), "2-3");
  assert.equal(replay.goTo(3).pointer[2], 3);
});

test("nodes that come and go: who is there, the charge and the bound", () => {
  const events = [
    "join 3 = ok", "link 1 3 = ok", "step 1 = 1:seduce>3", "step 3 = 3:marry>1", "leave 1 = ok",
    "leave 1 = refused 1 unknown-node"
  ];
  const text = ["matching hh 3 2", ...events.map((event, at) => `${at + 1} ${event}`), ""].join("\n");
  const replay = new Replay(new Transcript(text));
  assert.deepEqual([...replay.series.nodes], [2, 3, 3, 3, 3, 2, 2]);
  assert.deepEqual([0, 1, 2, 3, 4, 5, 6].map((number) => replay.bound(number)), [2, 3, 5, 5, 5, 2, 2]);
  assert.deepEqual([...replay.goTo(5).here], [0, 0, 1, 1]);
  assert.equal(replay.goTo(6).status(0), "nodes=2 edges=0 pairs=0 enabled=0 charge=0 spent=0");
  assert.deepEqual([...replay.goTo(0).here], [0, 1, 1, 0]);
  assert.equal(pairsOf(replay.goTo(4)), "1-3");
});

test("a partner that leaves leaves an update, and its name comes back unflagged", () => {
  const events = [
    "link 1 2 = ok", "step 1 = 1:seduce>2", "step 2 = 2:marry>1", "step 1 2 = 1:update 2:update", "leave 2 = ok",
    "join 2 = ok"
  ];
  const text = ["matching manne 2", ...events.map((event, at) => `${at + 1} ${event}`), ""].join("\n");
  const replay = new Replay(new Transcript(text));
  assert.equal(replay.goTo(5).status(0), "nodes=1 edges=0 pairs=0 enabled=1 charge=2 spent=0");
  assert.equal(enabledOf(replay.machine), "1:update");
  assert.equal(replay.goTo(6).status(0), "nodes=2 edges=0 pairs=0 enabled=1 charge=3 spent=0");
  assert.equal(replay.machine.flag[2], 0);
});

test("README's first transcript", () => {
  const readme = readFileSync(new URL("../../README.md", import.meta.url), "utf8");
  const text = /```\n(matching hh 2\n[^`]*)```/.exec(readme)[1];
  const replay = new Replay(new Transcript(text));
  assert.equal(`7 status = ${replay.goTo(7).status(replay.series.spent[7])}`, text.trimEnd().split("\n").at(-1));
});

test(
  "bursts of disturbances before and behind an entry: one ends where somebody moves, and not at a question or a refusal",
  () => {
    const text = [
      "matching hh 2",
      "1 show 1 = -",
      "2 link 1 2 = ok",
      "3 link 1 2 = refused 3 already-linked",
      "4 point 1 2 = ok",
      "5 step 2 = 2:marry>1",
      "6 unlink 1 2 = ok",
      "7 status = nodes=2 edges=0 pairs=0 enabled=0 charge=0 spent=0",
      "8 link 1 2 = ok",
      "9 step 1 = 1:seduce>2",
      "10 point 1 - = ok",
      "",
    ].join("\n");
    const replay = new Replay(new Transcript(text));
    const entries = Array.from({ length: 11 }, (_, number) => number);
    assert.deepEqual(entries.map((number) => replay.nextDisturbance(number)), [4, 4, 4, 4, 8, 8, 8, 8, 10, 10, null]);
    assert.deepEqual(
      entries.map((number) => replay.previousDisturbance(number)), [null, null, null, null, null, 4, 4, 4, 4, 8, 8]);
    assert.deepEqual(entries.map((number) => replay.epochAt(number).start), [0, 0, 2, 2, 4, 4, 6, 6, 8, 8, 10]);
  });

test(
  "a transcript opens at its first move; one without moves at the end of its first burst, and one with a base at that",
  () => {
    const opening = (...lines) => new Replay(new Transcript([...lines, ""].join("\n"))).opening;
    assert.equal(
      opening("matching hh 3", "1 link 1 2 = ok", "2 link 2 3 = ok", "3 step 1 = 1:seduce>2", "4 step 2 = 2:marry>1"),
      3);
    assert.equal(opening("matching hh 3", "1 enabled = none", "2 link 1 2 = ok", "3 link 2 3 = ok", "4 show 1 = -"), 3);
    assert.equal(opening("matching hh 3", "1 show 1 = -"), 0);
    assert.equal(opening("matching hh 3"), 0);
    assert.equal(opening(...BASE, "3 step 2 = 2:marry>1"), 2);
  });

test("a long transcript is entered anywhere: the counts are those of a walk from its beginning", () => {
  const lines = ["matching manne 6"];
  let draw = 5;
  const next = (most) => (draw = (draw * 48271) % 2147483647) % most;
  const machine = new Machine("manne", 6);
  const statuses = [machine.status(0)];
  for (let number = 1; number <= 1500; number += 1) {
    const [v, w] = [1 + next(6), 1 + next(6)];
    const linked = machine.neighbours[v].has(w);
    const events = [
      `flag ${v} ${next(2)}`, v === w ? `point ${v} -` : `${linked ? ["unlink", "point"][next(2)] : "link"} ${v} ${w}`
    ];
    lines.push(`${number} ${events[next(2)]} = ok`);
    carryOut(machine, readEntry(lines.at(-1)));
    statuses.push(machine.status(0));
  }
  const replay = new Replay(new Transcript(`${lines.join("\n")}\n`));
  assert.ok(replay.snapshots.length > 3);
  for (const number of [1500, 0, 1499, 200, 201, 199, 750, 749, 1000, 3]) {
    const reached = replay.goTo(number);
    assert.equal(reached.status(0), statuses[number], `entry ${number}`);
    reached.recount();
    assert.equal(reached.status(0), statuses[number], `entry ${number}, counted anew`);
  }
});

test("the longest runs of docs/BOUNDS.md have their bounds' rounds, which begin anew with each edit and fault", () => {
  for (const [name, most] of [["reaches_its_bound_hh", 6], ["most_rounds", 12]]) {
    const replay =
      new Replay(new Transcript(readFileSync(new URL(`../../examples/${name}.transcript`, import.meta.url), "latin1")));
    const { last } = replay.transcript;
    assert.deepEqual([replay.valueAt("rounds", last), replay.mostRounds(last)], [most, most], name);
    const ends = Array.from({ length: last + 1 }, (_, number) => number).filter((number) => replay.endsRound(number));
    assert.equal(ends.length, most, name);
  }
  // three nodes, each linked with each, that point round: once 1 and 2 abandon a round is over; a cut begins anew
  const lines = [
    "matching hh 3", "1 link 1 2 = ok", "2 link 1 3 = ok", "3 link 2 3 = ok", "4 point 1 2 = ok", "5 point 2 3 = ok",
    "6 point 3 1 = ok", "7 step 1 = 1:abandon", "8 step 2 = 2:abandon", "9 step 2>1 = 2:seduce>1",
    "10 step 1>3 = 1:marry>3", "11 link 1 1 = refused 2 self-loop", "12 unlink 1 3 = ok", ""
  ];
  const replay = new Replay(new Transcript(lines.join("\n")));
  assert.deepEqual([...replay.series.rounds].slice(6), [0, 0, 1, 1, 2, 2, 0]);
});

const BASE = ["matching2 hh 2", "base 2 spent=1 nodes=2 edges=1", "node 1 2 0", "node 2 - 0", "edge 1 2"];

test("a base among the entries changes nothing", () => {
  const text =
    ["matching hh 2", "1 link 1 2 = ok", "2 step 1 = 1:seduce>2", ...BASE, "3 step 2 = 2:marry>1", ""].join("\n");
  const { series, disturbances } = new Replay(new Transcript(text));
  assert.deepEqual([...series.charge], [0, 2, 1, 0]);
  assert.deepEqual([...series.spent], [0, 0, 1, 2]);
  assert.deepEqual(disturbances, [1]);
});

test("a transcript that begins with a base: its state, charge and spent, and the numbers of its entries", () => {
  const replay = new Replay(new Transcript([...BASE, "3 step 2 = 2:marry>1", "4 unlink 1 2 = ok", ""].join("\n")));
  assert.deepEqual([2, 3, 4].map((number) => replay.valueAt("charge", number)), [1, 0, 0]);
  assert.deepEqual([2, 3, 4].map((number) => replay.valueAt("spent", number)), [1, 2, 0]);
  assert.deepEqual([2, 3, 4].map((number) => replay.bound(number)), [4, 4, 2]);
  assert.deepEqual([2, 3, 4].map((number) => replay.nextDisturbance(number)), [4, 4, null]);
  assert.deepEqual([2, 3, 4].map((number) => replay.previousDisturbance(number)), [null, null, null]);
  assert.deepEqual(
    [2, 3, 4].map((number) => replay.epochAt(number)),
    [{ start: null, place: 1 }, { start: null, place: 1 }, { start: 4, place: 2 }]);
  assert.deepEqual(replay.edgesEver, [[1, 2]]);
  assert.equal(replay.goTo(2).status(1), "nodes=2 edges=1 pairs=0 enabled=1 charge=1 spent=1");
  assert.equal(pairsOf(replay.goTo(3)), "1-2");
});

test("the bound by the nodes alone: n²/2 + n - 2, the half rounded down, under hh alone", () => {
  const bounds = [0, 1, 2, 3, 4, 5, 6, 7, 65535].map((nodes) => mostAmong("hh", nodes));
  assert.deepEqual(bounds, [0, 0, 2, 5, 10, 15, 22, 29, 2147483645]);
  assert.equal(mostAmong("manne", 6), Infinity);
});

test("an epoch that an opening base cuts has the bound by its edges, and each later one the smaller bound", () => {
  const ends = [[1, 2], [1, 3], [1, 4], [2, 3], [2, 4], [3, 4]];
  const links = ends.map((edge) => `edge ${edge.join(" ")}`);
  const nodes = [1, 2, 3, 4].map((v) => `node ${v} - 0`);
  // four nodes, all linked: 2m + n is 16, and 16/2 + 4 - 2 is 10; the base tells of 4 moves before it
  for (const number of [0, 7]) {
    const lines = ["matching2 hh 4", `base ${number} spent=4 nodes=4 edges=6`, ...nodes, ...links];
    const cut = `${number + 1} unlink 1 2 = ok`;
    const replay = new Replay(new Transcript([...lines, cut, ""].join("\n")));
    assert.deepEqual([number, number + 1].map((at) => replay.bound(at)), [16, 10]);
    assert.deepEqual([number, number + 1].map((at) => replay.isBoundByNodes(at)), [false, true]);
    assert.deepEqual([number, number + 1].map((at) => replay.movesLeft(at)), [10, 10]);
  }
  const made = ends.map((edge, at) => `${at + 1} link ${edge.join(" ")} = ok`);
  const whole = (rules) => new Replay(new Transcript([`matching ${rules} 4`, ...made, ""].join("\n")));
  // two edges: 8 and 10; three: 10 and 10; four: 12 and 10
  assert.deepEqual([2, 3, 4, 6].map((at) => whole("hh").bound(at)), [8, 10, 10, 10]);
  assert.deepEqual([2, 3, 4, 6].map((at) => whole("hh").isBoundByNodes(at)), [false, false, true, true]);
  assert.deepEqual([2, 3, 4, 6].map((at) => whole("manne").bound(at)), [16, 18, 20, 24]);
});

test("a base with an absent name and a flag: 1 updates, 3 abandons", () => {
  const lines = ["matching2 manne 4", "base 9 spent=2 nodes=2 edges=1", "node 1 - 1", "node 3 1 0", "edge 1 3", ""];
  const replay = new Replay(new Transcript(lines.join("\n")));
  // the edge counts 2, the flag of 1 that has no partner 2, the pointer of 3 and its flag that may come 1 each
  assert.equal(replay.goTo(9).status(2), "nodes=2 edges=1 pairs=0 enabled=2 charge=6 spent=2");
  assert.equal(enabledOf(replay.machine), "1:update 3:abandon");
  assert.deepEqual([...replay.machine.here], [0, 1, 0, 1, 0]);
  assert.deepEqual([replay.bound(9), replay.valueAt("spent", 9)], [8, 2]);
});
