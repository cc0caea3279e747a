// Tests networks of the playground that go on where a transcript ends, by what `run --from` of the program
// prints, and what is left of a transcript whose end is cut.
import assert from "node:assert/strict";
import {mkdtempSync, rmSync, writeFileSync} from "node:fs";
import {tmpdir} from "node:os";
import {join} from "node:path";
import test from "node:test";
import {scriptOf, wordsOf} from "./scripts.mjs";
import {engineOfPage, program, whatIsMissing} from "./wasm.mjs";
import {beforeCut} from "../src/cut.mjs";
import {BadLine, Lab} from "../src/playground/lab.mjs";
import {sourceOf, sourceOfEnd} from "../src/playground/sources.mjs";
import {entriesOfName, networkOfName} from "../src/playground/text_kinds.mjs";
import {Replay} from "../src/replay.mjs";
import {readBase, Transcript} from "../src/transcript.mjs";

const SCRIPTS = Number(process.env.SCRIPTS ?? 200) / 2;
const skip = whatIsMissing();

/** A lab that goes on where a transcript ends. */
function labAfter(engine, text, file = "") {
  const { source, rules: [rules], said } = sourceOfEnd(engine, { text, file, layout: null, named: false });
  return { lab: new Lab(engine, {...source, rules }), source, said };
}

function asText(lines) {
  return lines.map((line) => `${line}\n`).join("");
}

/** The bytes that the program prints when it goes on from a text. */
function printedAfter(text, lines) {
  const folder = mkdtempSync(join(tmpdir(), "rudekpi-"));
  try {
    writeFileSync(join(folder, "first"), text);
    return program(["run", "--from", join(folder, "first")], asText(lines));
  } finally {
    rmSync(folder, { recursive: true });
  }
}

test(`a lab goes on as run --from does, and shows what the player shows, in ${SCRIPTS} scripts`, { skip }, async () => {
  const engine = await engineOfPage();
  let [scripts, cut] = [0, 0];
  for (let seed = 1; seed <= SCRIPTS; seed += 1) {
    const script = scriptOf(seed + 9000);
    const { names, lines } = script;
    const at = script.next(lines.length + 1);
    const { status, text: first } = program(wordsOf(script), asText(lines.slice(0, at)));
    if (status !== 0 || program(wordsOf(script), asText(lines)).status !== 0) {
      // a line is no command
      continue;
    }
    scripts += 1;
    // from the whole text, and from a base alone
    const base = printedAfter(first, []).text;
    for (const start of [first, base]) {
      const { lab, source } = labAfter(engine, start, "first.transcript");
      assert.equal(lab.transcript, base, `seed ${seed}`);
      assert.equal(source.present, readBase(base, 0).nodes);
      lines.slice(at).forEach((line) => lab.feed(line));
      assert.deepEqual({ status: 0, text: lab.transcript }, printedAfter(start, lines.slice(at)), `seed ${seed}`);
      assert.equal(program(["audit"], start + lab.transcript).status, 0, `seed ${seed}`);
      // undone, redone, and in small pieces
      lab.replay([]);
      assert.equal(lab.transcript, base);
      lines.slice(at).forEach((line) => {
        lab.feed(line);
        lab.look();
        const replay = new Replay(new Transcript(lab.transcript));
        const { last } = replay.transcript;
        const { seen } = lab;
        cut += seen.isCut ? 1 : 0;
        assert.deepEqual(
          [seen.status(seen.spent), seen.movesLeft, seen.epochBound],
          [replay.machine.status(replay.valueAt("spent", last)), replay.movesLeft(last), replay.bound(last)],
          `seed ${seed}, entry ${last} of ${names} names`);
      });
      lab.free();
    }
  }
  assert.ok(scripts > SCRIPTS / 2 && cut > SCRIPTS, `${scripts} scripts, ${cut} states in an epoch that a base cuts`);
});

test("what a lab that goes on saves is named after its last entry, with the command for it", { skip }, async () => {
  const engine = await engineOfPage();
  const text = "matching manne 4 3\n1 link 1 2 = ok\n2 link 1 4 = refused 1 unknown-node\n";
  for (const [file, word] of [
         ["first.transcript", "first.transcript"], ["", "TRANSCRIPT"], ["my run.txt", "'my run.txt'"], ["-x", "'./-x'"],
         ["it's", "'it'\\''s'"], ["$(ls)", "'$(ls)'"]]) {
    const { lab, source, said } = labAfter(engine, text, file);
    assert.equal(lab.fileName, "matching-manne-4-after-2");
    assert.equal(lab.commandOf("script"), `./console run --from ${word} < matching-manne-4-after-2.script`);
    assert.equal(lab.commandOf("transcript"), `cat ${word} matching-manne-4-after-2.transcript | ./console audit`);
    assert.deepEqual([source.names, source.present], [4, 3]);
    assert.equal(said, "Here is the network after entry 2. The next entry is 3.");
    lab.free();
  }
  assert.equal(entriesOfName("matching-manne-4-after-2.script"), 2);
  assert.equal(entriesOfName("matching-manne-4-2.script"), null);
  assert.equal(networkOfName("matching-manne-4-2.script").present, 2);
  assert.throws(
    () => sourceOf("link 1 2\n", "matching-hh-4-after-2 (1).script", "script", ["hh"]),
    { message: /^it goes on after entry 2 of a transcript/});
});

test("a network that is too large, or a damaged transcript, is refused", { skip }, async () => {
  const engine = await engineOfPage();
  const given = { file: "", layout: null, named: false };
  assert.equal(sourceOfEnd(engine, {...given, text: "matching hh 2000\n" }).source.names, 2000);
  assert.throws(
    () => sourceOfEnd(engine, {...given, text: "matching hh 2001 3\n" }),
    { message: "it has 2,001 names, and the page draws 2,000 at most (console run --from takes it)" });
  assert.throws(
    () => sourceOfEnd(engine, {...given, text: "matching hh 2\n1 link 1 2 = no\n" }),
    { name: "Damaged", message: "line 2: not a transcript line" });
});

test("the bound is that by the edges until a disturbance, in long texts too", { skip }, async () => {
  const ends = [1, 2, 3, 4, 5].flatMap((v) => [2, 3, 4, 5, 6].filter((w) => v < w).map((w) => [v, w]));
  const first = program(["run", "--rules", "hh", "--nodes", "6"], asText(ends.map(([v, w]) => `link ${v} ${w}`))).text;
  const { lab } = labAfter(await engineOfPage(), first);
  const questions = Array.from({ length: 400 }, () => "enabled");
  for (const [lines, bound] of [[[], 36], [questions, 36], [[...questions, "point 1 -"], 22], [questions, 22]]) {
    lines.forEach((line) => lab.feed(line));
    assert.equal(lab.look().epochBound, bound);
  }
  lab.replay([...questions, "drive 1 1"]);
  assert.deepEqual([lab.seen.epochBound, lab.seen.spent], [36, 1]);
  lab.free();
});

test("a log that is full takes no further line, and keeps what it had", { skip }, async () => {
  const engine = await engineOfPage();
  const base = (number) => `matching2 hh 3\nbase ${number} spent=0 nodes=3 edges=1\n` +
    "node 1 - 0\nnode 2 - 0\nnode 3 - 0\nedge 1 2\n";
  const why = "needs more than the 16,777,216 entries that a run has at most";
  const { lab, said } = labAfter(engine, base(16777214));
  assert.equal(said, "Here is the network after entry 16,777,214. The next entry is 16,777,215.");
  lab.feed("link 2 3");
  const before = lab.transcript;
  assert.throws(() => lab.feed("drive 1 2"), new BadLine(2, "drive 1 2", why));
  assert.equal(lab.transcript, before);
  lab.feed("drive 1 1");
  const full = lab.transcript;
  assert.match(full, /^16777216 step /m);
  for (const line of ["link 1 3", "drive 1 1", "status"]) {
    assert.throws(() => lab.feed(line), new BadLine(3, line, why));
  }
  assert.equal(lab.transcript, full);
  assert.deepEqual({ status: 0, text: full }, printedAfter(base(16777214), lab.lines));
  const after = labAfter(engine, full);
  assert.equal(after.said, "Here is the network after entry 16,777,216. A run takes no more entries.");
  assert.throws(() => after.lab.feed("link 1 3"), new BadLine(1, "link 1 3", why));
  after.lab.free();
  lab.free();
});

test("of a transcript whose end is cut, the lines before it remain", { skip }, () => {
  const wrongLine = (text) => Number(/^line (\d+): /.exec(program(["audit"], text).text)?.[1] ?? 0);
  const rest = (text) => beforeCut(text, wrongLine(text), (part) => program(["audit"], part).status === 0);
  const whole = "matching hh 3\n1 link 1 2 = ok\n2 step 1 = 1:seduce>2\n";
  const base = "matching2 hh 3\nbase 2 spent=1 nodes=3 edges=1\nnode 1 2 0\nnode 2 - 0\nnode 3 - 0\nedge 1 2\n";
  const last = whole.lastIndexOf("\n", whole.length - 2) + 1;
  for (let end = last + 1; end < whole.length; end += 1) {
    assert.equal(rest(whole.slice(0, end)), whole.slice(0, last));
  }
  for (let end = 1; end < base.length; end += 1) {
    assert.equal(rest(whole + base.slice(0, end)), whole, `${end} bytes of a base`);
  }
  assert.equal(rest(`${whole}${base}3 sh`), whole + base);
  for (const text of ["matching h", base.slice(0, -3), `${whole}lnk\n`, `${whole}lnk\n3 sh`, "lnk"]) {
    assert.equal(rest(text), null, text);
  }
});
