// Compares release/rudekpi.mjs, or the module that RUDEKPI_MJS names, with the program on random scripts
// (SCRIPTS, by default 200): calls give the same bytes, and each reply agrees with its entry.
import assert from "node:assert/strict";
import {existsSync, readFileSync} from "node:fs";
import {spawnSync} from "node:child_process";
import test from "node:test";
import {fileURLToPath, pathToFileURL} from "node:url";
import {scriptOf, wordsOf} from "./scripts.mjs";
import {program, whatIsMissing} from "./wasm.mjs";

const PATH = process.env.RUDEKPI_MJS ?? fileURLToPath(new URL("../../release/rudekpi.mjs", import.meta.url));
const EXAMPLE = fileURLToPath(new URL("../../examples/javascript/ring.mjs", import.meta.url));
const SCRIPTS = Number(process.env.SCRIPTS ?? 200);
const skip = existsSync(PATH) ? whatIsMissing() : `no module at ${PATH}`;
const { Audit, audit, Damaged, Ended, Network, NotCounted, Refused, RudekpiError, version, Wish } =
  skip ? {} : await import(pathToFileURL(PATH));

const TURNED = ["drive", "scramble"];
const LISTED = ["enabled", "matching"];
// as in docs/USE.md
const REFUSALS = [
  "unknown-node", "self-loop", "already-linked", "not-linked", "too-many-edges", "not-neighbour", "no-flag",
  "empty-choice", "not-central", "chosen-twice", "not-enabled", "bad-target", "already-present"
];

/** Makes the call for a line of a script, on a network of numbers or of the caller's own names. */
function told(net, line, name = (number) => number) {
  const [word, ...given] = line.split(" ");
  const node = (text) => (text === "-" ? null : name(Number(text)));
  const item = (text) => {
    const [mover, target] = text.split(">");
    return target === undefined ? node(mover) : new Wish(node(mover), node(target));
  };
  switch (word) {
    case "flag":
      return net.flag(node(given[0]), given[1] === "1");
    case "step":
      return net.step(given.map(item));
    case "drive":
    case "scramble":
      return net[word](Number(given[0]), Number(given[1]));
    default:
      return net[word](...given.map(node));
  }
}

function written(word, reply) {
  const move = ({ node, rule, target }) => `${node}:${rule}${target === null ? "" : `>${target}`}`;
  switch (word) {
    case "step":
      return reply.map(move).join(" ");
    case "show":
      return `${reply.target ?? "-"}`;
    case "enabled":
      return [...reply].map(([node, rule]) => `${node}:${rule}`).join(" ") || "none";
    case "matching":
      return reply.pairs.map(([a, b]) => `${a}-${b}`).join(" ") || "none";
    case "status": {
      const { entry: _, ...counts } = reply;
      return Object.entries(counts).map(([key, value]) => `${key}=${value}`).join(" ");
    }
    default:
      return "ok";
  }
}

/** The entries that a call reports, with their replies as a transcript has them. */
function entriesOf(net, line) {
  const [word] = line.split(" ");
  try {
    const reply = told(net, line);
    if (TURNED.includes(word)) {
      const turns = reply.map((turn) => [turn.entry, word === "drive" ? written("step", turn) : "ok"]);
      return [...turns, [reply.status.entry, written("status", reply.status)]];
    }
    return word === "checkpoint" ? [] : [[reply.entry, written(word, reply)]];
  } catch (wrong) {
    assert.ok(wrong instanceof Refused, `${line}: ${wrong}`);
    assert.equal(wrong.text, REFUSALS[wrong.number - 1], line);
    assert.equal(wrong.message, `${line}: refused ${wrong.number} ${wrong.text} (entry ${wrong.entry})`);
    return [[wrong.entry, `refused ${wrong.number} ${wrong.text}`]];
  }
}

/**
 * The script lines equivalent to the calls: a status follows turns, and lines that are no commands are left
 * out.
 */
function linesOf({ lines }) {
  const words = ["link", "unlink", "point", "flag", "join", "leave", "step", "show", "status", "checkpoint"];
  const known = [...words, ...LISTED, ...TURNED];
  const shape = /^[a-z]+(?: (?:[1-9]\d*|0|-)(?:>\d+)?)*$/;
  const arity = { link: 2, flag: 2, drive: 2 };
  return lines.filter((line) => {
    const [word, ...given] = line.split(" ");
    return known.includes(word) && shape.test(line) && given.length >= (arity[word] ?? 0)
      && (word !== "flag" || given[1] < 2);
  });
}

function scriptFor(lines) {
  return lines.flatMap((line) => (TURNED.includes(line.split(" ")[0]) ? [line, "status"] : [line]))
    .map((line) => `${line}\n`)
    .join("");
}

function entriesIn(text) {
  return [...text.matchAll(/^(\d+) [^=]*?(?: = )(.*)$/gm)].map(([, entry, reply]) => [Number(entry), reply]);
}

/**
 * Compares the answers of calls that add no entry with the last base and the last answers of a transcript.
 */
function compareState(net, text, seed) {
  const base = text.slice(text.lastIndexOf("matching2 "));
  const nodes = [...base.matchAll(/^node (\d+) (\d+|-) ([01])$/gm)].map(
    ([, node, pointer, flag]) => [Number(node), pointer === "-" ? null : Number(pointer), flag === "1"]);
  const edges = [...base.matchAll(/^edge (\d+) (\d+)$/gm)].map(([, a, b]) => [Number(a), Number(b)]);
  assert.deepEqual(net.present, nodes.map(([node]) => node), `seed ${seed}`);
  assert.deepEqual(net.edges, edges, `seed ${seed}`);
  for (const [node, pointer, flag] of nodes) {
    assert.deepEqual(net.registers(node), { pointer, flag }, `seed ${seed}, node ${node}`);
    const near = edges.filter((ends) => ends.includes(node)).map(([a, b]) => a + b - node).sort((a, b) => a - b);
    assert.deepEqual(net.neighbours(node), near, `seed ${seed}, node ${node}`);
    const other = nodes.find(([it]) => it === pointer);
    assert.equal(net.partner(node), other?.[1] === node ? pointer : null, `seed ${seed}, node ${node}`);
  }
  assert.deepEqual(net.restless(), net.present.filter((node) => !net.isAtRest(node)), `seed ${seed}`);
  for (const name of net.nodes.filter((node) => !net.present.includes(node))) {
    for (const ask of [() => net.registers(name), () => net.neighbours(name)]) {
      assert.throws(ask, { name: "RangeError", message: `node ${name} is not present` });
    }
  }
}

test(`${SCRIPTS} random scripts by calls write what the program writes, and replies are the entries'`, { skip }, () => {
  const kinds = new Set();
  let refused = 0;
  for (let seed = 1; seed <= SCRIPTS; seed += 1) {
    const script = scriptOf(seed);
    const lines = [...linesOf(script), "checkpoint"];
    const theirs = program(wordsOf(script), scriptFor(lines)).text;
    const net = new Network(script.rules, script.names, { present: script.present });
    const entries = lines.flatMap((line) => entriesOf(net, line));
    assert.deepEqual(entries, entriesIn(theirs), `seed ${seed}`);
    compareState(net, theirs, seed);
    assert.equal(net.transcript(), theirs, `seed ${seed}`);
    const said = program(["audit"], theirs).text;
    const { entries: count, epochs, moves } = net.audit();
    assert.equal(`accepted: ${count} entries, ${epochs} epochs, ${moves} moves\n`, said, `seed ${seed}`);
    // the moves that can still come, by docs/BOUNDS.md
    const { nodes, charge, enabled } = net.status();
    const dense = nodes < 2 ? 0 : Math.floor((nodes * nodes) / 2) + nodes - 2;
    const bound = script.rules === "hh" ? Math.min(charge, dense) : charge;
    assert.equal(net.movesLeft(), enabled === 0 ? 0 : bound, `seed ${seed}`);
    net.close();
    lines.forEach((line) => kinds.add(line.split(" ")[0]));
    refused += entries.filter(([, reply]) => reply.startsWith("refused ")).length;
  }
  assert.equal(kinds.size, 14);
  assert.ok(refused > SCRIPTS, `${refused} refused`);
});

test("names of the caller's own stand for numbers, in replies and in errors", { skip }, () => {
  const net = new Network("manne", ["ann", "bob", 7], { present: 2 });
  assert.deepEqual(
    [net.nodes, net.present, net.numberOf(7), net.nameOf(2)], [["ann", "bob", 7], ["ann", "bob"], 3, "bob"]);
  assert.deepEqual(net.join(7), { entry: 1 });
  assert.deepEqual(net.link("ann", "bob"), { entry: 2 });
  assert.deepEqual(net.link("bob", 7), { entry: 3 });
  assert.deepEqual([...net.enabled()], [["ann", "seduce"], ["bob", "seduce"]]);
  assert.deepEqual([...net.step(["bob"])], [{ node: "bob", rule: "seduce", target: 7 }]);
  assert.deepEqual([...net.step([new Wish(7, "bob")])], [{ node: 7, rule: "marry", target: "bob" }]);
  assert.deepEqual(net.show("bob"), { entry: 7, node: "bob", target: 7 });
  assert.deepEqual(net.matching().pairs, [["bob", 7]]);
  assert.deepEqual([net.matching().partner(7), net.matching().partner("ann"), net.partner(7)], ["bob", null, "bob"]);
  assert.throws(() => net.unlink("ann", 7), {
    name: "Refused",
    message: "unlink \"ann\" 7: refused 4 not-linked (entry 11)",
    event: "unlink \"ann\" 7",
    number: 4,
    text: "not-linked",
    entry: 11
  });
  assert.throws(() => net.link("ann", "cleo"), { name: "RangeError", message: "no node has the name \"cleo\"" });
  assert.throws(() => net.step([new Wish("ann", 7)]), /^Refused: step "ann">7: refused 11 not-enabled \(entry 12\)$/);
  // a set is sorted by number, so the same set is the same step
  net.scramble(3, 4);
  const enabled = [...net.enabled().keys()];
  const [one, other] = [new Network("manne", 3), new Network("manne", 3)];
  for (const it of [one, other]) {
    it.link(1, 2);
    it.link(2, 3);
  }
  assert.deepEqual(one.step(new Set([2, 1])), other.step(new Set([1, 2])));
  assert.equal(one.transcript(), other.transcript());
  assert.ok(enabled.length > 0);
});

test("the module tells the program's version", { skip }, () => {
  assert.equal(`console ${version()}\n`, program(["--version"], "").text);
});

test("what an edit or a fault costs, and whom it reaches, by the tables of docs/BOUNDS.md", { skip }, () => {
  const net = new Network("hh", 4);
  [[1, 2], [2, 3], [3, 4]].forEach(([a, b]) => net.link(a, b));
  assert.equal(net.silentCostOf("leave", 4), null);
  // 1 and 2 pair, and so do 3 and 4
  for (const choice of [[1], [2], [3], [4]]) {
    net.step(choice);
  }
  assert.deepEqual(net.matching().pairs, [[1, 2], [3, 4]]);
  assert.equal(net.enabled().size, 0);
  assert.deepEqual([...net.reach("unlink", 1, 2)], [1, 2]);
  assert.deepEqual([...net.reach("unlink", 2, 3)], []);
  assert.deepEqual([...net.reach("link", 1, 4)], []);
  assert.deepEqual([...net.reach("leave", 4)], [3]);
  assert.equal(net.costOf("link", 1, 4), 2);
  assert.equal(net.costOf("unlink", 2, 3), 0);
  assert.equal(net.costOf("unlink", 1, 2), 2);
  assert.equal(net.costOf("leave", 4), 2);
  assert.equal(net.costOf("point", 1, null), 6);
  assert.equal(net.silentCostOf("unlink", 1, 2), 0);
  assert.equal(net.silentCostOf("leave", 4), 0);
  assert.equal(net.silentCostOf("point", 1, null), 1);
  net.unlink(1, 2);
  assert.throws(
    () => net.costOf("unlink", 1, 2), { name: "RangeError", message: /^unlink 1 2 would be refused \(not-linked\)/});
  for (const [words, why] of [
         [["link", 2, 3], "already-linked"],
         [["link", 2, 2], "self-loop"],
         [["join", 1], "already-present"],
         [["flag", 1, true], "no-flag"],
         [["point", 1, 4], "not-neighbour"],
         [["leave", 9], "unknown-node"],
  ]) {
    assert.throws(() => net.costOf(...words), { message: new RegExp(`would be refused \\(${why}\\)`) });
    assert.deepEqual([...net.reach(...words)], []);
  }
  assert.equal(net.silentCostOf("link", 1, 2), 2);
  assert.throws(() => net.costOf("step", 1), { name: "RangeError" });
  assert.throws(() => net.costOf("link", 1), { name: "TypeError", message: "link takes 2 words, and not 1" });
  assert.deepEqual([net.isAtRest(3), net.isAtRest(1), net.restless()], [true, true, []]);
});

test("rounds are counted on request, and begin anew with each edit and fault", { skip }, () => {
  // three nodes, each linked with each, that point at each other in a ring
  const net = new Network("hh", 3);
  [[1, 2], [1, 3], [2, 3]].forEach((ends) => net.link(...ends));
  [[1, 2], [2, 3], [3, 1]].forEach(([node, target]) => net.point(node, target));
  for (const ask of [() => net.rounds(), () => net.roundsLeft()]) {
    assert.throws(ask, new NotCounted());
  }
  net.countRounds();
  const longest = [[1, 0, 3], [2, 1, 2], [new Wish(2, 1), 1, 2], [new Wish(1, 3), 2, 1], [2, 3, 0]];
  for (const [item, rounds, left] of longest) {
    net.step([item]);
    assert.deepEqual([net.rounds(), net.roundsLeft()], [rounds, left]);
  }
  assert.throws(() => net.link(1, 1), Refused);
  assert.equal(net.rounds(), 3);
  net.unlink(1, 3);
  assert.deepEqual([net.rounds(), net.roundsLeft()], [0, 3]);
  assert.throws(() => Network.resume(net.transcript()).rounds(), NotCounted);
  net.close();
  assert.throws(() => net.rounds(), { name: "TypeError", message: "the network is closed" });
});

test("the longest runs of docs/BOUNDS.md have their bounds' rounds", { skip }, () => {
  for (const [rules, name, most] of [["hh", "reaches_its_bound_hh", 6], ["manne", "most_rounds", 12]]) {
    const script = readFileSync(new URL(`../../examples/${name}.script`, import.meta.url), "utf8");
    const net = new Network(rules, 6);
    net.countRounds();
    script.trimEnd().split("\n").forEach((line) => told(net, line));
    assert.deepEqual([net.rounds(), net.roundsLeft()], [most, 0], name);
  }
});

test("arguments that are none throw a RangeError or a TypeError, and add no entry", { skip }, () => {
  for (const [words, name] of [
         [["rattle", 3], "RangeError"],
         [["hh", -1], "RangeError"],
         [["hh", 65536], "RangeError"],
         [["hh", 2.5], "TypeError"],
         [["hh", "abc"], "TypeError"],
         [["hh", ["a", "a"]], "RangeError"],
         [["hh", ["a", null]], "TypeError"],
         [["hh", 3, { present: 4 }], "RangeError"],
  ]) {
    assert.throws(() => new Network(...words), { name });
  }
  const net = new Network("manne", 3);
  for (const [call, name] of [
         [() => net.link(0, 1), "RangeError"],
         [() => net.link(1, 65536), "RangeError"],
         [() => net.link("1", 2), "TypeError"],
         [() => net.link(1.5, 2), "TypeError"],
         [() => net.show(), "TypeError"],
         [() => net.flag(1, 2), "RangeError"],
         [() => net.step("12"), "TypeError"],
         [() => net.step(1), "TypeError"],
         [() => net.step([1, NaN]), "TypeError"],
         [() => net.drive(-1, 2), "RangeError"],
         [() => net.drive(2n ** 64n, 2), "RangeError"],
         [() => net.drive("7", 2), "TypeError"],
         [() => net.drive(7, 1_000_001), "RangeError"],
         [() => net.scramble(7, 0.5), "TypeError"],
         [() => net.neighbours(4), "RangeError"],
         [() => net.step(new Array(65536).fill(1)), "RangeError"],
         [() => audit(7), "TypeError"],
         [() => audit(null), "TypeError"],
  ]) {
    assert.throws(call, { name }, `${call}`);
  }
  assert.equal(net.transcript(), "matching manne 3\n");
  assert.deepEqual(net.drive(2n ** 64n - 1n, 3).status.entry, 1);
  net.close();
  net.close();
  assert.equal(net.transcript(), "matching manne 3\n1 status = nodes=3 edges=0 pairs=0 enabled=0 charge=3 spent=0\n");
  for (const call of
         [() => net.link(1, 2), () => net.enabled(), () => net.drive(1, 1), () => net.edges, () => net.partner(1),
         () => net.reach("link", 1, 2), () => net.checkpoint()]) {
    assert.throws(call, { name: "TypeError", message: "the network is closed" }, `${call}`);
  }
});

test("a transcript that is not kept begins with its last base", { skip }, () => {
  const net = new Network("hh", 3, { keep: false });
  net.link(1, 2);
  net.step([1]);
  const { number, spent, nodes, edges } = net.checkpoint();
  assert.deepEqual([number, spent, edges], [2, 1, [[1, 2]]]);
  assert.deepEqual(
    [...nodes],
    [[1, { pointer: 2, flag: false }], [2, { pointer: null, flag: false }], [3, { pointer: null, flag: false }]]);
  net.step([2]);
  assert.equal(
    net.transcript(),
    "matching2 hh 3\nbase 2 spent=1 nodes=3 edges=1\nnode 1 2 0\nnode 2 - 0\nnode 3 - 0\nedge 1 2\n" +
      "3 step 2 = 2:marry>1\n");
  assert.deepEqual(net.audit(), { entries: 1, epochs: 1, moves: 1 });
});

test("a network that is renumbered goes on in the same state with a new transcript", { skip }, () => {
  const base = "spent=1 nodes=2 edges=1\nnode 1 2 0\nnode 2 - 0\nedge 1 2\n";
  const begun = "matching hh 2\n1 link 1 2 = ok\n2 step 1 = 1:seduce>2\n";
  for (const keep of [true, false]) {
    const net = new Network("hh", 2, { keep });
    net.link(1, 2);
    net.step([1]);
    const ended = net.renumber();
    assert.equal(ended, `${begun}matching2 hh 2\nbase 2 ${base}`);
    assert.equal(net.transcript(), `matching2 hh 2\nbase 0 ${base}`);
    assert.deepEqual([net.step([2]).entry, net.status().entry, net.status().spent], [1, 2, 2]);
    assert.deepEqual([audit(ended).entries, net.audit().entries, net.registers(2).pointer], [2, 3, 1]);
    const second = net.renumber();
    assert.deepEqual([audit(second).entries, net.audit().entries, net.show(1).entry], [3, 0, 1]);
    assert.ok(second.startsWith(`matching2 hh 2\nbase 0 ${base}1 step 2 = 2:marry>1\n`));
    net.close();
    assert.throws(() => net.renumber(), { name: "TypeError", message: "the network is closed" });
  }
});

/** A text without the base that begins it. */
function withoutBase(text) {
  const [, nodes, edges] = /^matching2 .*\nbase \d+ spent=\d+ nodes=(\d+) edges=(\d+)\n/.exec(text);
  return text.split("\n").slice(2 + Number(nodes) + Number(edges)).join("\n");
}

test("a network that goes on where a run ended writes the bytes of the whole run but for the base", { skip }, () => {
  for (let seed = 1; seed <= SCRIPTS / 4; seed += 1) {
    const script = scriptOf(seed + 400);
    const lines = linesOf(script);
    const cut = script.next(lines.length + 1);
    const begun = () => new Network(script.rules, script.names, { present: script.present });
    const [whole, first] = [begun(), begun()];
    lines.forEach((line) => entriesOf(whole, line));
    lines.slice(0, cut).forEach((line) => entriesOf(first, line));
    const start = first.transcript();
    for (const given of [start, Buffer.from(start), new TextEncoder().encode(start).buffer]) {
      const rest = Network.resume(given);
      assert.equal(rest.rules, script.rules);
      lines.slice(cut).forEach((line) => entriesOf(rest, line));
      assert.equal(start + withoutBase(rest.transcript()), whole.transcript(), `seed ${seed}`);
      assert.equal(program(["audit"], start + rest.transcript()).status, 0, `seed ${seed}`);
      rest.checkpoint();
      compareState(rest, rest.transcript(), seed);
      rest.close();
    }
    whole.close();
    first.close();
  }
});

test("a network goes on from a base alone, under the caller's names", { skip }, () => {
  const base = "matching2 manne 4\nbase 9 spent=1 nodes=3 edges=1\nnode 1 2 0\nnode 2 1 0\nnode 4 - 0\nedge 1 2\n";
  const net = Network.resume(base, { nodes: ["ann", "bob", "cleo", "dan"], keep: false });
  assert.equal(net.transcript(), base);
  assert.deepEqual([net.present, net.partner("ann")], [["ann", "bob", "dan"], "bob"]);
  const { entry, spent, charge } = net.status();
  assert.deepEqual([entry, spent, charge > 0], [10, 1, true]);
  assert.deepEqual(net.join("cleo"), { entry: 11 });
  assert.equal(net.checkpoint().number, 11);
  assert.ok(net.transcript().startsWith("matching2 manne 4\nbase 11 spent=0 nodes=4 edges=1\n"));
  for (const nodes of [["ann"], ["a", "b", "c", "d", "e"], ["a", "a", "b", "c"]]) {
    assert.throws(() => Network.resume(base, { nodes }), { name: "RangeError" });
  }
  for (const nodes of ["abcd", 4.5, [null, 1, 2, 3]]) {
    assert.throws(() => Network.resume(base, { nodes }), { name: "TypeError" });
  }
});

test("what is no transcript is refused with the audit's verdict", { skip }, () => {
  const text = "matching hh 2\n1 link 1 2 = ok\n2 step 1 = 1:seduce>2\n";
  for (const wrong of
         ["", "\n", "matching hh x\n", text.slice(0, -1), `${text}3 sh`, text.replace("2 step", "3 step"),
          text.replace("= ok", "= refused 3 already-linked"), `${text}matching2 hh 2\nbase 2 spent=0 nodes=2 edges=1\n`,
          "matching \u00e9"]) {
    let said = null;
    try {
      audit(wrong);
    } catch (damage) {
      said = damage.message;
    }
    assert.throws(
      () => Network.resume(wrong), (damage) => damage instanceof Damaged && damage.message === said, `${wrong}`);
  }
  for (const wrong of [7, null, undefined, ["matching hh 2\n"]]) {
    assert.throws(() => Network.resume(wrong), { name: "TypeError" });
  }
});

/** The module's verdict, at once or in pieces, in the program's words. */
function verdict(judge) {
  try {
    const { entries, epochs, moves } = judge();
    return `accepted: ${entries} entries, ${epochs} epochs, ${moves} moves\n`;
  } catch (wrong) {
    assert.ok(wrong instanceof Damaged && wrong instanceof RudekpiError, `${wrong}`);
    assert.equal(wrong.message, `line ${wrong.line}: ${wrong.why}`);
    return `${wrong.message}\n`;
  }
}

test("transcripts, whole and damaged, are judged as the program judges them, in pieces too", { skip }, () => {
  const bytes = (text) => Buffer.from(text, "latin1");
  for (let seed = 1; seed <= 30; seed += 1) {
    const script = scriptOf(seed + 900);
    const whole = program(wordsOf(script), scriptFor(linesOf(script))).text;
    const at = script.next(whole.length);
    const texts = [
      whole, whole.slice(0, at), `${whole.slice(0, at)}7${whole.slice(at + 1)}`,
      `${whole.slice(0, at)}\u00e9${whole.slice(at)}`, whole.replace(" = ok", " = refused 1 absent")
    ];
    for (const text of texts) {
      const wanted = program(["audit"], bytes(text)).text;
      assert.equal(verdict(() => audit(bytes(text))), wanted, `seed ${seed}: ${JSON.stringify(text)}`);
      assert.equal(verdict(() => audit(text)), wanted, `seed ${seed}, as a text`);
      const size = 1 + script.next(50);
      assert.equal(
        verdict(() => {
          const judge = new Audit();
          for (let from = 0; from < text.length; from += size) {
            judge.feed(bytes(text).subarray(from, from + size));
          }
          return judge.finish();
        }),
        wanted, `seed ${seed}, in pieces of ${size}`);
    }
  }
});

test("an audit that is over says so, and its verdict may be asked again", { skip }, () => {
  const judge = new Audit();
  judge.feed("matching hh 2\n1 link ");
  judge.feed("1 2 = ok\n");
  assert.deepEqual(judge.finish(), { entries: 1, epochs: 2, moves: 0 });
  assert.deepEqual(judge.finish(), { entries: 1, epochs: 2, moves: 0 });
  assert.throws(() => judge.feed("2 status"), { name: "TypeError", message: "the audit is over" });
  const damaged = new Audit();
  damaged.feed("matching hh 2\n");
  const wrong = { name: "Damaged", line: 2, why: "not a transcript line" };
  assert.throws(() => damaged.feed("lnk\n"), wrong);
  assert.throws(() => damaged.feed("1 link 1 2 = ok\n"), wrong);
  assert.throws(() => damaged.finish(), wrong);
  const closed = new Audit();
  closed.close();
  assert.throws(() => closed.finish(), { name: "TypeError", message: "the audit is closed" });
});

test("a full log ends the network, as it ends the program", { skip }, () => {
  const net = new Network("hh", 1, { keep: false });
  for (let entry = 1; entry <= 16_777_216; entry += 1) {
    net.show(1);
    if (entry % 60_000 === 0) {
      net.checkpoint();
    }
  }
  assert.throws(() => net.show(1), (wrong) => wrong instanceof Ended && wrong.status === 4);
  assert.throws(() => net.link(1, 1), { name: "Ended", lastLine: "! log full" });
  assert.ok(net.transcript().endsWith("\n16777216 show 1 = -\n"));
});

const RUNNERS = [["node", [EXAMPLE]], ["deno", ["run", "--allow-read", EXAMPLE]], ["bun", ["run", EXAMPLE]]];

for (const [name, words] of RUNNERS) {
  const lacks = spawnSync(name, ["--version"]).status !== 0 && `no ${name}`;
  test(`the example by ${name}`, { skip: skip || lacks || (process.env.RUDEKPI_MJS && "another module") }, () => {
    const { status, stdout } = spawnSync(name, words, { encoding: "utf8" });
    assert.equal(status, 0);
    const script = EXAMPLE.replace(".mjs", ".script");
    const { text } = program(["run", "--rules", "manne", "--nodes", "12"], readFileSync(script));
    assert.equal(stdout, text);
  });
}
