// The transcripts in the repository's case files that `audit` accepts there.
import {readdirSync, readFileSync} from "node:fs";

const TESTS = new URL("../../tests/", import.meta.url);
const EXAMPLES = new URL("../../examples/", import.meta.url);

/** The indented lines below a part, without their two spaces. */
function linesBelow(part) {
  return part.split("\n").slice(1).filter((line) => line.startsWith("  ")).map((line) => `${line.slice(2)}\n`).join("");
}

/** Name and text of each whole transcript of the case files. */
export function* transcriptsOfCases() {
  for (const file of readdirSync(TESTS).filter((name) => name.endsWith(".cases"))) {
    for (const text of readFileSync(new URL(file, TESTS), "ascii").split(/^case /m).slice(1)) {
      const parts = text.split(/^(?=(?:words|in|out|err|status|audited|each)\b)/m);
      const out = parts.find((part) => /^out\n  matching2? /.test(part));
      if (out && parts.some((part) => part.startsWith("audited accepted: "))) {
        yield {
          name: `${file}: ${text.slice(0, text.indexOf("\n"))}`,
          text: linesBelow(out),
          audited: /audited (accepted: .*)/.exec(text)[1]
        };
      }
    }
  }
}

export function* transcriptsOfExamples() {
  for (const file of readdirSync(EXAMPLES).filter((name) => name.endsWith(".transcript"))) {
    yield { name: file, text: readFileSync(new URL(file, EXAMPLES), "ascii") };
  }
}

/** Each picture of tests/pictures.cases with its transcript and its entry. */
export function* picturesOfCases() {
  for (const text of readFileSync(new URL("pictures.cases", TESTS), "ascii").split(/^case /m).slice(1)) {
    const parts = text.split(/^(?=(?:words|in|out|err|status|audited|each)\b)/m);
    const words = /^words picture(?: --entry[ =](\d+))?$/m.exec(text);
    const [given, out] = ["in\n", "out\n  graph"].map((head) => parts.find((part) => part.startsWith(head)));
    if (words && given && out) {
      yield {
        name: text.slice(0, text.indexOf("\n")),
        entry: words[1],
        text: linesBelow(given),
        picture: linesBelow(out)
      };
    }
  }
}
