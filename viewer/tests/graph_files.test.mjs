// Tests graph files, the kinds of texts, undo, and when work is at risk.
import assert from "node:assert/strict";
import test from "node:test";
import {GraphFault, MOST_LINKS, readGraph} from "../src/playground/graph_files.mjs";
import {Past} from "../src/playground/past.mjs";
import {kindOf, networkOfName} from "../src/playground/text_kinds.mjs";
import {linesOf, renumbered} from "../src/playground/texts.mjs";
import {BadLine} from "../src/playground/lab.mjs";
import {Work} from "../src/playground/work.mjs";
import {drawn} from "./wasm.mjs";

test("edge lists: names, weights, comments, nodes alone, and an edge from both ends", () => {
  const { nodes, links, renamed } = readGraph("# roads\nb a 2\n\na\tb\nc b -1.5e3\nlonely\n", "edge list");
  assert.deepEqual({ nodes, links, renamed }, { nodes: 4, links: [[1, 2], [1, 3]], renamed: true });
  assert.deepEqual(readGraph("10 2\n2 1\r\n", "edge list"), { nodes: 3, links: [[2, 3], [1, 2]], renamed: true });
  assert.deepEqual(readGraph("2 1\n", "edge list"), { nodes: 2, links: [[1, 2]], renamed: false });
  // a sign that looks like a digit is a name, not a number
  assert.deepEqual(readGraph("² 1\n", "edge list"), { nodes: 2, links: [[1, 2]], renamed: true });
});

test("DIMACS, METIS and node-link JSON", () => {
  assert.deepEqual(
    readGraph("c x\np edge 4 2\ne 4 1\ne 1 4\ne 2 3\n", "DIMACS graph"),
    { nodes: 4, links: [[1, 4], [2, 3]], renamed: false });
  assert.deepEqual(
    readGraph("% x\n4 2\n2\n1\n4\n3\n", "METIS graph"), { nodes: 4, links: [[1, 2], [3, 4]], renamed: false });
  assert.deepEqual(readGraph("3 1 000\n\n3\n2\n\n", "METIS graph"), { nodes: 3, links: [[2, 3]], renamed: false });
  assert.deepEqual(
    readGraph(
      "{\"nodes\": [{\"id\": 1}, {\"id\": \"1\"}], \"edges\": [{\"source\": \"1\", \"target\": 1}]}", "node-link graph")
      .links,
    [[1, 2]]);
});

test("what is none of its format is refused with its line", () => {
  for (const [format, text, said, line] of [
         ["edge list", "1 2\n1,2\n", /^line 2 has a comma/, "1,2"],
         ["edge list", "1 2\n\n# x\n1 2 3 4\n", /^line 4 is no edge/, "1 2 3 4"],
         ["edge list", "1 2 far\n", /^line 1 is no edge/, "1 2 far"],
         ["edge list", "7 7\n", /^line 1 links a node with itself/, "7 7"],
         ["edge list", `${"x".repeat(70)} y z\n`, /^line 1/, "x".repeat(60)],
         ["DIMACS graph", "e 1 2\n", /^line 1 is no line p edge N M/, "e 1 2"],
         ["DIMACS graph", "p edge 2 1\ne 1 2 3\n", /^line 2 is no line e A B/, "e 1 2 3"],
         ["DIMACS graph", "p edge 2 1\np edge 2 1\n", /^line 2 is no line e A B/, "p edge 2 1"],
         ["DIMACS graph", "p edge 99999999999 0\n", /^line 1 has to name the number of nodes/, "p edge 99999999999 0"],
         ["DIMACS graph", "p edge 2 1\ne 01 2\n", /^line 2 has to name two nodes/, "e 01 2"],
         ["DIMACS graph", "c nothing\n", /has a line p edge N M/, ""],
         ["METIS graph", "2 1 011\n2\n1\n", /^line 1 is no line N M/, "2 1 011"],
         ["METIS graph", "2 1\n2\n1\n1\n", /^line 4 comes after the lines of all 2 nodes/, "1"],
         ["METIS graph", "2 1\n3\n1\n", /^line 2 has to name a neighbour, a number from 1 to 2/, "3"],
         ["METIS graph", "", /^line 1 is no line N M/, ""],
         ["node-link graph", "[]", /has a list of nodes/, ""],
         ["node-link graph", "[".repeat(100000), /^it is no JSON/, ""],
         ["node-link graph", "{\"multigraph\": true, \"nodes\": [], \"links\": []}", /is told to be a multigraph/, ""],
         ["node-link graph", "{\"directed\": 1, \"nodes\": [], \"links\": []}", /is told to be a directed graph/, ""],
         ["node-link graph", "{\"nodes\": [{}], \"links\": []}", /node 1 has no name/, ""],
         [
           "node-link graph", "{\"nodes\": [{\"id\": 1}, {\"id\": 1}], \"links\": []}", /the node "?1"? is there twice/,
           ""
         ],
         ["node-link graph", "{\"nodes\": [null], \"links\": []}", /node 1 has no name/, ""],
         ["node-link graph", "{\"nodes\": [{\"id\": [1]}], \"links\": []}", /node 1 has no name/, ""],
  ]) {
    assert.throws(
      () => readGraph(text, format),
      (wrong) => wrong instanceof GraphFault && said.test(wrong.message) && wrong.text === line,
      `${format}: ${text.slice(0, 40)}`);
  }
  const many =
    Array.from({ length: 120 }, (_, v) => Array.from({ length: v }, (_, w) => `${w + 1} ${v + 1}\n`).join("")).join("");
  assert.throws(
    () => readGraph(many, "edge list"),
    new RegExp(`7,140 edges, and this page draws 500 and ${MOST_LINKS.toLocaleString("en")}`));
});

test(
  "a graph file with a damaged line is refused or is the graph that its lines say: 2,000 damages of each format",
  () => {
    const whole = {
      "edge list": "# ring\n1 2\n2 3\n3 4\n4 1\n",
      "DIMACS graph": "c ring\np edge 4 4\ne 1 2\ne 2 3\ne 3 4\ne 4 1\n",
      "METIS graph": "% ring\n4 4\n2 4\n1 3\n2 4\n3 1\n",
      "node-link graph":
        "{\"nodes\":[{\"id\":1},{\"id\":2},{\"id\":3},{\"id\":4}],\"links\":[{\"source\":1,\"target\":2},{\"source\":2,\"target\":3},{\"source\":3,\"target\":4},{\"source\":4,\"target\":1}]}",
    };
    const signs = "0123456789 \n,-+.eEp#c%[]{}\"\t²é";
    for (const [format, text] of Object.entries(whole)) {
      const next = drawn(4711);
      let refused = 0;
      for (let turn = 0; turn < 2000; turn += 1) {
        const at = next(text.length);
        const damaged = text.slice(0, at) + signs[next(signs.length)] + text.slice(at + next(2));
        try {
          const { nodes, links } = readGraph(damaged, format);
          assert.ok(links.every(([v, w]) => v >= 1 && v < w && w <= nodes), damaged);
          assert.equal(new Set(links.map(String)).size, links.length, damaged);
          // each given pair of numbers, and no other
          if (format === "DIMACS graph") {
            const told = damaged.split("\n")
                           .map((line) => line.trim().split(/\s+/))
                           .filter(([kind]) => kind === "e")
                           .map(([, v, w]) => [Number(v), Number(w)].sort((a, b) => a - b).join(","));
            assert.deepEqual(new Set(links.map(String)), new Set(told), damaged);
          }
        } catch (wrong) {
          assert.ok(wrong instanceof GraphFault, `${wrong}: ${damaged}`);
          refused += 1;
        }
      }
      assert.ok(refused > 50, `${format}: ${refused} refused`);
    }
  });

test("what a text is", () => {
  for (const [kind, text, name] of [
         ["transcript", "matching hh 2\n", ""],
         ["transcript", "matching2 hh 2\nbase", "x.script"],
         ["transcript", "</script>", "dropped.transcript"],
         ["transcript", "", "empty.transcript"],
         ["script", "\nlink 1 2\n", ""],
         ["script", "matching\n", ""],
         ["script", "status", "x.txt"],
         ["script", "lnk", "x.script"],
         ["DIMACS graph", "c by hand\nc\np edge 2 1\n", ""],
         ["DIMACS graph", "anything", "x.COL"],
         ["METIS graph", "2 1\n2\n1\n", "x.metis"],
         ["node-link graph", " {\"nodes\": []}", ""],
         ["node-link graph", "?", "x.json"],
         ["GraphML", "<?xml version='1.0'?>", "x.graphml"],
         ["GraphML", "<graphml>", ""],
         ["edge list", "a b\n", ""],
         ["edge list", "c d\n", ""],
         ["edge list", "# only this\n", "x.txt"],
         ["nothing", " \n", ""],
  ]) {
    assert.equal(kindOf(text, name), kind, `${name}: ${text}`);
  }
  assert.deepEqual(networkOfName("matching-manne-27-15.script"), { rules: "manne", names: 27, present: 15 });
  assert.deepEqual(networkOfName("matching-hh-27 (1).script"), { rules: "hh", names: 27, present: 27 });
  assert.equal(networkOfName("other.script"), null);
});

test("a bad line of a text has the number that it has there", () => {
  const { lines, numbers } = linesOf("\r\nlink 1 2\r\n\n  lnk\n");
  assert.deepEqual({ lines, numbers }, { lines: ["link 1 2", "lnk"], numbers: [2, 4] });
  assert.equal(renumbered(new BadLine(2, "lnk", "is no command"), numbers).message, "line 4 is no command: lnk");
});

test("acts are taken back and done again in their order, whole scripts too", () => {
  const labs = [{ lines: ["a"] }, { lines: ["a"] }];
  const past = new Past();
  const set = (scripts) => scripts.forEach((lines, at) => (labs[at].lines = lines));
  const now = () => labs.map(({ lines }) => lines.join(""));
  past.remember(labs);
  set([["a", "b"], ["a"]]);
  past.remember(labs, true);
  set([["x", "y", "z"], ["a"]]);
  set(past.back(labs));
  assert.deepEqual(now(), ["ab", "a"]);
  set(past.back(labs));
  assert.deepEqual(now(), ["a", "a"]);
  assert.equal(past.back(labs), null);
  set(past.again(labs));
  assert.deepEqual(now(), ["ab", "a"]);
  set(past.again(labs));
  assert.deepEqual(now(), ["xyz", "a"]);
  assert.equal(past.again(labs), null);
  set(past.back(labs));
  past.remember(labs);
  past.forget();
  set(past.again(labs));
  assert.deepEqual(now(), ["xyz", "a"]);
  set(past.back(labs));
  past.remember(labs);
  assert.equal(past.again(labs), null);
});

test("work is at risk a minute after its first unsaved act", () => {
  let now = 1000;
  const work = new Work(() => now);
  now += 100_000;
  assert.equal(work.isAtRisk, false);
  work.acted();
  now += 59_000;
  work.acted();
  assert.equal(work.isAtRisk, false);
  now += 2000;
  assert.equal(work.isAtRisk, true);
  work.saved();
  assert.equal(work.isAtRisk, false);
});
