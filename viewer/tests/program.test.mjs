// Compares release/rudekpi.mjs, or the module that RUDEKPI_MJS names, run as a program by node, with the
// program: words, bytes, messages and exit statuses of `run` and `audit`. tests/run --module has the cases.
import assert from "node:assert/strict";
import {spawn, spawnSync} from "node:child_process";
import {existsSync, mkdtempSync, readFileSync, rmSync, symlinkSync, writeFileSync} from "node:fs";
import {tmpdir} from "node:os";
import {join} from "node:path";
import test from "node:test";
import {fileURLToPath, pathToFileURL} from "node:url";
import {askedBy, BadWords} from "../src/program/words.mjs";
import {whyNoCommand} from "../src/script_words.mjs";
import {scriptOf, wordsOf} from "./scripts.mjs";
import {drawn, PROGRAM, whatIsMissing} from "./wasm.mjs";

const PATH = process.env.RUDEKPI_MJS ?? fileURLToPath(new URL("../../release/rudekpi.mjs", import.meta.url));
const CLIENT = fileURLToPath(new URL("../../python", import.meta.url));
const skip = existsSync(PATH) ? whatIsMissing() : `no module at ${PATH}`;
const noPython = spawnSync("python3", ["--version"]).status === 0 ? false : "no python3";
const noProc = existsSync("/proc/self/status") ? false : "no /proc";
const RUN = ["run", "--rules", "hh", "--nodes", "2"];
const MEGABYTE = 1 << 20;

function ended(file, words, input) {
  const { status, stdout, stderr } = spawnSync(file, words, { input, maxBuffer: 64 * MEGABYTE });
  return { status, out: stdout.toString("latin1"), err: stderr.toString("latin1") };
}

function byModule(words, input) {
  return ended(process.execPath, [PATH, ...words], input);
}

/** What the module says of words, without carrying them out. */
function saidOf(words) {
  try {
    const asked = askedBy(words);
    return asked.task === "show" ? { status: 0, text: asked.text } : { status: null };
  } catch (wrong) {
    assert.ok(wrong instanceof BadWords, `${wrong}`);
    return { status: 2, text: wrong.message };
  }
}

/** Likewise of the program. */
function toldOf(words) {
  const { status, out, err } = ended(PROGRAM, words, "");
  if (status === 2 && err.startsWith("error: ")) {
    return { status, text: err };
  }
  return out.startsWith("Runs a script") ? { status, text: out } : { status: null };
}

const WORDS = [
  "--rules",
  "hh",
  "manne",
  "--nodes",
  "2",
  "--present",
  "--workers",
  "1",
  "--from",
  "/none",
  "--help",
  "-h",
  "--",
  "-",
  "--rules=hh",
  "--nodes=3",
  "--nodes=-1",
  "--nodes=+7",
  "--nodes=99999999999999999999",
  "--nodes=",
  "--speed",
  "-x",
  "-1",
  "",
  "--workers=0",
  "--help=1",
  "--present=0",
  "--rules=",
  "--from=",
  "y",
  "/none"
];

test("the words of a run are taken, or refused, as the program does", { skip }, () => {
  const next = drawn(81);
  for (let turn = 0; turn < 400; turn += 1) {
    const words = ["run", ...Array.from({ length: next(7) }, () => WORDS[next(WORDS.length)])];
    assert.deepEqual(saidOf(words), toldOf(words), words.join(" "));
  }
});

test("random scripts have the program's bytes, faults and statuses", { skip }, () => {
  for (let seed = 1; seed <= 12; seed += 1) {
    const script = scriptOf(seed);
    const input = script.lines.map((line) => `${line}\n`).join("");
    const [mine, its] = [byModule(wordsOf(script), input), ended(PROGRAM, wordsOf(script), input)];
    assert.deepEqual(mine, its, `seed ${seed}`);
    const [, first, damage] = [input, its.out, its.out.replace(/ok|-/g, (part, at) => (at % 3 === 0 ? "none" : part))];
    for (const text of [first, damage, first.slice(0, -7)]) {
      assert.deepEqual(byModule(["audit"], text), ended(PROGRAM, ["audit"], text), `an audit of seed ${seed}`);
    }
  }
});

test("a run goes on from a file, and audits judge files", { skip }, () => {
  const folder = mkdtempSync(join(tmpdir(), "rudekpi-"));
  try {
    const file = join(folder, "before.transcript");
    writeFileSync(file, ended(PROGRAM, RUN, "link 1 2\nstep 1\n").out);
    const more = "step 2\nmatching\n";
    const [mine, its] =
      [byModule, (words, text) => ended(PROGRAM, words, text)].map((by) => by(["run", "--from", file], more));
    assert.deepEqual(mine, its);
    assert.match(mine.out, /^matching2 hh 2\nbase 2 /);
    assert.deepEqual(
      byModule(["audit", file], ""), { status: 0, out: "accepted: 2 entries, 2 epochs, 1 moves\n", err: "" });
    assert.deepEqual(byModule(["audit", "-"], "matching hh 0\n").status, 0);
    const none = join(folder, "none");
    assert.deepEqual(
      byModule(["audit", none], ""), { status: 3, out: "", err: `! read failed\n! ${none}: no such file\n` });
    assert.deepEqual(
      byModule(["run", "--from", none], ""), { status: 3, out: "", err: `! read failed\n! ${none}: no such file\n` });
    const script = join(folder, "script");
    writeFileSync(script, more);
    for (const words of [
           ["run", "--from", file, script], ["run", script, "--from", file, "--workers", "2"],
           ["run", "--from", file, "-"], [...RUN, script], [...RUN, none], [...RUN, folder], ["audit", folder],
           [...RUN, `${folder}/a\nb\x7f`], ["run", "--from", none, script], ["run", "--from", file, none]]) {
      assert.deepEqual(byModule(words, more), ended(PROGRAM, words, more), words.join(" "));
    }
  } finally {
    rmSync(folder, { recursive: true });
  }
});

test("the reasons for lines that are no commands are the Python client's", { skip: noPython }, () => {
  const next = drawn(7);
  const pieces = [
    "link",
    "lnk",
    "unlink",
    "Step",
    "step",
    "point",
    "flag",
    "drive",
    "matchin",
    "quit",
    "save",
    "constructor",
    "shw",
    "1",
    "02",
    "65536",
    "99999",
    "-",
    "0",
    "18446744073709551616",
    "1>2",
    "1>2>3",
    "x",
    "",
    " ",
    "\t",
    "\r",
    ",",
    "#",
    "//",
    "\xef\xbb\xbf",
    "\xff\xfe",
    "\x00",
    "\xe9",
    "1000001",
    "checkpoints",
    "scrambel",
    "0x1",
    "+1",
    "00",
    "1".repeat(30),
    "a".repeat(90),
    "0".repeat(20) + "1".repeat(50)
  ];
  const lines = Array.from(
    { length: 3000 },
    () => Array.from({ length: 1 + next(4) }, () => pieces[next(pieces.length)]).join(next(5) === 0 ? "" : " "));
  lines.push(`step${" 1".repeat(65_535)}`, `step${" 1".repeat(65_536)}`, `show 1${" ".repeat(1_048_571)}`);
  const code = "import sys\nfrom rudekpi.script_words import why_no_command\n" +
    "for line in sys.stdin.buffer.read().split(b'\\n'):\n    print(why_no_command(line))\n";
  const { stdout, status } = spawnSync(
    "python3", ["-c", code],
    { input: Buffer.from(lines.join("\n"), "latin1"), env: {...process.env, PYTHONPATH: CLIENT } });
  assert.equal(status, 0);
  const wanted = stdout.toString().split("\n").slice(0, -1).map((why) => (why === "None" ? null : why));
  const found = lines.map((line) => whyNoCommand(Buffer.from(line, "latin1")));
  assert.deepEqual(found, wanted);
  const kinds = new Set(wanted.map((why) => why?.replace(/`[^`]*`|\d+/g, "_")));
  assert.ok(kinds.size > 20, `${kinds.size} kinds of reasons`);
});

test("the program has the module's reason for a bad line", { skip }, () => {
  const lines = [
    "quit",
    "settle",
    "jink 1 2",
    "SHOW 1",
    "show 065",
    "flag 1 2",
    "leave 65536",
    "point 1 --",
    "step 1>2>3",
    "step 1 >",
    "drive 1",
    "drive 18446744073709551616 1",
    "scramble 1 1000001",
    "join 1,2",
    "matching 1",
    "12 show 1 = -",
    "# a comment",
    "show\t1",
    " show 1",
    "show  1",
    "show 1\r",
    "\x80",
    `${"b".repeat(90)} 1`,
    `step${" 1".repeat(65_536)}`,
    "1".repeat(MEGABYTE + 1)
  ];
  for (const line of lines) {
    for (const end of ["", "\n", "\nshow 1\n"]) {
      const input = Buffer.from(`show 1\n${line}${end}`, "latin1");
      const told = ended(PROGRAM, RUN, input);
      assert.match(told.err, /^! line 2: not a command\n! [ -~]+\n$/, line.slice(0, 50));
      assert.deepEqual(told, byModule(RUN, input), line.slice(0, 50));
    }
  }
});

test("a script's fault is told in two lines, of which the second says why", { skip }, () => {
  const { status, err } = byModule(RUN, "show 1\nlnk 1 2\n");
  assert.deepEqual([status, err], [2, "! line 2: not a command\n! `lnk` is no command: `link` may be meant\n"]);
});

test("a reply comes before more input is read", { skip }, async () => {
  const child = spawn(process.execPath, [PATH, ...RUN]);
  const lines = [];
  let heard = () => {};
  child.stdout.on("data", (data) => {
    lines.push(data.toString());
    heard();
  });
  const upTo = async (text) => {
    while (!lines.join("").endsWith(text)) {
      await new Promise((resolve) => (heard = resolve));
    }
  };
  await upTo("matching hh 2\n");
  child.stdin.write("link 1 2\n");
  await upTo("1 link 1 2 = ok\n");
  child.stdin.end("step 1");
  await upTo("2 step 1 = 1:seduce>2\n");
  assert.equal(await new Promise((resolve) => child.on("close", resolve)), 0);
});

/** The most memory, in bytes, that a process has had. */
function peakOf(child) {
  return 1024 * Number(/VmHWM:\s+(\d+) kB/.exec(readFileSync(`/proc/${child.pid}/status`, "ascii"))[1]);
}

test("memory does not grow with the input", { skip: skip || noProc }, async () => {
  for (const [words, head, line] of [[RUN, "", "unlink 1 2\n"], [["audit"], "matching hh 2\n", ""]]) {
    const child = spawn(process.execPath, [PATH, ...words], { stdio: ["pipe", "ignore", "inherit"] });
    const write = (text) => new Promise((resolve) => child.stdin.write(text, resolve));
    await write(head);
    let entry = 0;
    const peaks = [];
    for (let turn = 0; turn < 80; turn += 1) {
      await write(
        line.repeat(1 << 17) || Array.from({ length: 1 << 17 }, () => `${(entry += 1)} show 1 = -\n`).join(""));
      peaks.push(peakOf(child));
    }
    child.stdin.end();
    assert.equal(await new Promise((resolve) => child.on("close", resolve)), 0);
    const grown = peaks[79] - peaks[9];
    assert.ok(grown < 48 * MEGABYTE, `${words[0]} has taken ${grown} bytes more`);
  }
});

test("an import does nothing, and a link to the module is the program", { skip }, () => {
  const folder = mkdtempSync(join(tmpdir(), "rudekpi-"));
  try {
    const program = join(folder, "other.mjs");
    writeFileSync(
      program, `import {version} from ${JSON.stringify(pathToFileURL(PATH).href)};\nconsole.log(version());\n`);
    assert.deepEqual(ended(process.execPath, [program, ...RUN], "show 1\n"), { status: 0, out: "1.0.0\n", err: "" });
    const link = join(folder, "link.mjs");
    symlinkSync(PATH, link);
    assert.equal(ended(process.execPath, [link, ...RUN], "show 1\n").out, "matching hh 2\n1 show 1 = -\n");
  } finally {
    rmSync(folder, { recursive: true });
  }
});

test("commands that do not run here are named, with where they do", { skip }, () => {
  for (const word of ["picture", "epochs", "storm"]) {
    const { status, out, err } = byModule([word], "");
    assert.deepEqual([status, out], [2, ""]);
    assert.match(
      err, new RegExp(`^error: '${word}' does not run here: it needs the program console, on Linux on x86-64\n`));
  }
});
