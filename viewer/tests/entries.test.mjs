// An entry that no judge would accept is a fault of its line, however it came into the page.
import assert from "node:assert/strict";
import test from "node:test";
import {Replay} from "../src/replay.mjs";
import {Transcript, TranscriptFault} from "../src/transcript.mjs";
import {judgement} from "../src/judge.mjs";

const PAIR = {
  hh: ["matching hh 4 3", "1 link 1 2 = ok", "2 link 2 3 = ok"],
  manne: ["matching manne 4 3", "1 link 1 2 = ok", "2 link 1 3 = ok"]
};

function replayed(rules, ...events) {
  const entries = events.map((event, at) => `${at + 3} ${event}`);
  return new Replay(new Transcript([...PAIR[rules], ...entries, ""].join("\n")));
}

const IMPOSSIBLE = {
  hh: [
    "link 1 1 = ok",
    "link 1 2 = ok",
    "link 2 1 = ok",
    "link 1 4 = ok",
    "link 4 1 = ok",
    "link 1 99999 = ok",
    "link 0 1 = ok",
    "unlink 1 3 = ok",
    "unlink 9 1 = ok",
    "point 1 3 = ok",
    "point 4 - = ok",
    "point 0 - = ok",
    "flag 1 1 = ok",
    "join 1 = ok",
    "join 5 = ok",
    "join 0 = ok",
    "leave 4 = ok",
    "leave 70000 = ok",
    "step 1 = 1:marry>2",
    "step 1 = 1:seduce>3",
    "step 1 = 1:abandon",
    "step 1 = 1:update",
    "step 1 3 = 1:seduce>2 3:seduce>2",
    "step 9 = 9:seduce>1",
    "step 0 = 0:seduce>1",
  ],
  manne: [
    "step 1 = 1:seduce>2", "step 1 1 = 1:seduce>3 1:seduce>3", "step 3 = 3:seduce>1", "step 2 = 2:update",
    "flag 4 1 = ok"
  ],
};

for (const [rules, events] of Object.entries(IMPOSSIBLE)) {
  test(`what the machine never does under ${rules}`, () => {
    for (const event of events) {
      assert.throws(
        () => replayed(rules, event), (wrong) => wrong instanceof TranscriptFault && wrong.line === 4, event);
    }
  });
}

test("what the machine may do: any allowed target, many at once, names that come and go", () => {
  replayed(
    "hh", "step 2 = 2:seduce>1", "step 1 = 1:marry>2", "point 3 2 = ok", "step 3 = 3:abandon", "join 4 = ok",
    "leave 2 = ok", "join 2 = ok");
  replayed("hh", "step 2 = 2:seduce>3", "point 2 - = ok", "unlink 3 2 = ok", "link 3 1 = ok");
  replayed(
    "manne", "step 1 = 1:seduce>3", "step 3 = 3:marry>1", "step 1 3 = 1:update 3:update", "flag 2 1 = ok",
    "step 2 = 2:update", "leave 3 = ok", "step 1 = 1:update");
});

test("the foot of the page tells who judged, and where the counts differ", () => {
  const verdict = "accepted: 3 entries, 3 epochs, 0 moves";
  const own = judgement({ program: "console", own: true, verdict }, verdict);
  assert.equal(own.doubtful, false);
  assert.ok(own.text.startsWith(`Judged by Rudekpi's console audit: ${verdict}. What is shown`), own.text);
  const foreign = judgement({ program: "</script>", own: false, verdict }, "accepted: 3 entries, 2 epochs, 0 moves");
  assert.equal(foreign.doubtful, true);
  assert.match(
    foreign.text,
    /^Judged by <\/script> audit, which whoever made this page named, .*: accepted: 3 entries, 3 epochs, 0 moves\. This page counts otherwise: accepted: 3 entries, 2 epochs/);
});
