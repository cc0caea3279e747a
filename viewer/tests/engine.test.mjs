// Compares the engine inside the playground with the program on random scripts (SCRIPTS, by default 200): the
// same bytes of each script, and the same verdict on each transcript, whole or damaged.
import assert from "node:assert/strict";
import test from "node:test";
import {scriptOf, wordsOf} from "./scripts.mjs";
import {engineOfPage, program, whatIsMissing} from "./wasm.mjs";
import {summaryOf} from "../src/rudekpi/audits.mjs";
import {Session} from "../src/rudekpi/engine.mjs";
import {Damaged, EngineFault} from "../src/rudekpi/errors.mjs";
import {changes} from "../src/entries.mjs";
import {BadLine, Lab, MOST_FAULTS, MOST_TEXT} from "../src/playground/lab.mjs";
import {Replay} from "../src/replay.mjs";
import {movesOf, Transcript} from "../src/transcript.mjs";

const SCRIPTS = Number(process.env.SCRIPTS ?? 200);
const DAMAGES = 3;
const skip = whatIsMissing();

/** The engine's text for a script, and the exit status that the program would have. */
function played(engine, { rules, names, present, lines }) {
  const session = new Session(engine, rules, names, present);
  const parts = [session.read()];
  let status = 0;
  for (const line of lines) {
    try {
      session.feed(line);
    } catch (wrong) {
      assert.ok(wrong instanceof EngineFault && wrong.status === 1, `${wrong}`);
      status = 2;
      break;
    }
    parts.push(session.read());
  }
  session.free();
  return { status, text: parts.join("") };
}

function judged(engine, text) {
  try {
    const { entries, epochs, moves } = summaryOf(engine, Buffer.from(text, "latin1"));
    return { status: 0, text: `accepted: ${entries} entries, ${epochs} epochs, ${moves} moves\n` };
  } catch (wrong) {
    assert.ok(wrong instanceof Damaged, `${wrong}`);
    return { status: 1, text: `${wrong.message}\n` };
  }
}

/** A transcript that is cut, or with one byte or one line changed. */
function damaged(text, next) {
  const at = next(text.length);
  const lines = text.split(/(?<=\n)/);
  const line = next(lines.length);
  const ways = [
    () => text.slice(0, at) + String.fromCharCode(33 + next(90)) + text.slice(at + 1),
    () => text.slice(0, at),
    () => text.slice(0, at) + text.slice(at + 1),
    () => lines.filter((_, number) => number !== line).join(""),
    () => [...lines.slice(0, line), lines[line], ...lines.slice(line)].join(""),
    () => `${text}1 status = ok\n`,
    () => text.replace(" = ok", " = refused 1 absent"),
  ];
  return ways[next(ways.length)]();
}

test(`the engine writes what the program writes of ${SCRIPTS} scripts, and judges as it judges`, { skip }, async () => {
  const engine = await engineOfPage();
  let [bad, refused, accepted] = [0, 0, 0];
  for (let seed = 1; seed <= SCRIPTS; seed += 1) {
    const script = scriptOf(seed);
    const theirs = program(wordsOf(script), script.lines.map((line) => `${line}\n`).join(""));
    const ours = played(engine, script);
    assert.deepEqual(ours, theirs, `seed ${seed}`);
    bad += theirs.status === 2 ? 1 : 0;
    const texts = [theirs.text, ...Array.from({ length: DAMAGES }, () => damaged(theirs.text, script.next))];
    for (const text of texts) {
      const verdict = program(["audit"], text);
      assert.deepEqual(judged(engine, text), verdict, `seed ${seed}: ${JSON.stringify(text)}`);
      [refused, accepted] = [refused + verdict.status, accepted + 1 - verdict.status];
    }
  }
  // the comparisons cover both kinds
  assert.ok(
    bad > SCRIPTS / 10 && refused > SCRIPTS && accepted > SCRIPTS,
    `${bad} bad lines, ${refused} refused, ${accepted} accepted`);
});

/** A state in the words that the page shows. */
function shown(machine, spent) {
  const { pointer, flag, here, rule } = machine;
  const edges = machine.edges().map(([v, w]) => v * 65536 + w).sort((a, b) => a - b);
  const suitors = [...machine.suitors];
  return {
    pointer: [...pointer],
    flag: [...flag],
    here: [...here],
    rule,
    edges,
    suitors,
    status: machine.status(spent),
    bound: machine.epochBound,
    left: machine.movesLeft
  };
}

/**
 * Follows an entry and returns the complete rounds since the last edit or fault, by their definition: a round
 * ends once each node that was enabled at its start has moved, or was not enabled since.
 */
function followedRounds() {
  let [rounds, pending] = [0, []];
  return (entry, enabled) => {
    if (entry.disturbs) {
      [rounds, pending] = [0, enabled];
    } else if (changes(entry)) {
      const moved = movesOf(entry).map(({ node }) => node);
      pending = pending.filter((node) => !moved.includes(node) && enabled.includes(node));
      [rounds, pending] = pending.length > 0 ? [rounds, pending] : [rounds + 1, enabled];
    }
    return rounds;
  };
}

test(
  "what the page shows of the engine is what its player replays, at each entry of 200 transcripts", { skip },
  async () => {
    const engine = await engineOfPage();
    let [entries, most] = [0, 0];
    for (let seed = 1; seed <= 200; seed += 1) {
      const script = scriptOf(seed + 5000);
      const { text } = program(wordsOf(script), script.lines.map((line) => `${line}\n`).join(""));
      const replay = new Replay(new Transcript(text));
      const lab = new Lab(engine, script);
      const roundsAfter = followedRounds();
      for (let number = 1; number <= replay.transcript.last; number += 1) {
        lab.feed(replay.transcript.entry(number).event);
        const seen = lab.look();
        assert.deepEqual(
          shown(seen, seen.spent), shown(replay.goTo(number), replay.valueAt("spent", number)),
          `seed ${seed}, entry ${number}`);
        const rounds = roundsAfter(replay.transcript.entry(number), seen.enabledNodes);
        const left = Math.min(seen.movesLeft, seen.mostRounds - rounds);
        assert.deepEqual([seen.rounds, seen.roundsLeft], [rounds, left], `seed ${seed}, entry ${number}`);
        assert.equal(replay.valueAt("rounds", number), rounds, `seed ${seed}, entry ${number}`);
        assert.equal(replay.mostRounds(number), seen.mostRounds);
        most = Math.max(most, rounds);
        entries += 1;
      }
      assert.equal(
        lab.transcript.replace(/^matching2.*\n(?:(?:base|node|edge) .*\n)*/gm, ""),
        text.replace(/^matching2.*\n(?:(?:base|node|edge) .*\n)*/gm, ""), `seed ${seed}`);
      lab.free();
    }
    assert.ok(entries > 5000 && most > 3, `${entries} entries, ${most} rounds`);
  });

const NO_COMMAND = "`no` is no command: they are link, unlink, point, flag, join, leave, step, show, enabled, " +
  "matching, status, checkpoint, drive, scramble";

test("a lab takes no bad line, and plays other lines from the start", { skip }, async () => {
  const lab = new Lab(await engineOfPage(), { rules: "hh", names: 4, present: 3 });
  ["link 1 2", "link 2 3", "step 1"].forEach((line) => lab.feed(line));
  assert.throws(() => lab.feed("no command"), new BadLine(4, "no command", "is no command", NO_COMMAND));
  assert.equal(lab.script, "link 1 2\nlink 2 3\nstep 1\n");
  assert.equal(lab.transcript, "matching hh 4 3\n1 link 1 2 = ok\n2 link 2 3 = ok\n3 step 1 = 1:seduce>2\n");
  assert.equal(lab.words, "run --rules hh --nodes 4 --present 3");
  lab.replay(["link 1 2"]);
  assert.equal(lab.transcript, "matching hh 4 3\n1 link 1 2 = ok\n");
  assert.deepEqual([lab.seen.edgeCount, lab.seen.charge, lab.seen.enabledNodes], [1, 2, [1, 2]]);
  assert.throws(
    () => lab.replay(["link 1 2", "lnk"]),
    new BadLine(2, "lnk", "is no command", "`lnk` is no command: `link` may be meant"));
  lab.free();
});

test("a lab takes no line that would have the page stand still, and says which and why", { skip }, async () => {
  const lab = new Lab(await engineOfPage(), { rules: "hh", names: 3, present: 3 });
  const begun = performance.now();
  const full = "scramble 1 1000000";
  assert.throws(() => lab.replay(["link 1 2", full]), {
    name: "Error",
    line: 2,
    text: full,
    message: /^line 2 writes more than 100,000 registers, .*: scramble 1 1000000$/
  });
  assert.equal(lab.script, "link 1 2\n");
  const lines = Array.from({ length: 200 }, (_, at) => `scramble ${at} ${MOST_FAULTS}`);
  assert.throws(() => lab.replay(lines), { message: /^line \d+ comes after 16,777,216 characters of transcript/});
  assert.ok(lab.size > MOST_TEXT && lab.lines.length < 20, `${lab.size} characters of ${lab.lines.length} lines`);
  assert.ok(performance.now() - begun < 5000, `${performance.now() - begun} ms`);
  // a drive ends once no node is enabled, however many steps it has
  const drive = "link 1 2\ndrive 1 1000000\n";
  lab.replay(drive.trimEnd().split("\n"));
  assert.equal(lab.transcript, program(["run", "--rules", "hh", "--nodes", "3"], drive).text);
  lab.free();
});
