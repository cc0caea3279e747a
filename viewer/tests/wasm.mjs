// The engine of the page in release/, or of the page that PLAYGROUND names; and the program that it is
// compared with.
import {existsSync, readFileSync} from "node:fs";
import {spawnSync} from "node:child_process";
import {fileURLToPath} from "node:url";
import {canRun, Engine} from "../src/rudekpi/engine.mjs";

const PAGE = process.env.PLAYGROUND ?? fileURLToPath(new URL("../../release/playground.html", import.meta.url));
export const PROGRAM =
  process.env.CONSOLE ?? fileURLToPath(new URL("../../crates/console/out/console", import.meta.url));
const EMBEDDED = /<script type="application\/json" id="engine">"([A-Za-z0-9+/=]+)"<\/script>/;

/** Why no test can run here, or false. */
export function whatIsMissing() {
  if (!existsSync(PAGE)) {
    return `no page at ${PAGE}`;
  }
  if (!existsSync(PROGRAM)) {
    return `no program at ${PROGRAM}`;
  }
  return !canRun() && "this node does not run the engine";
}

export function moduleOfPage() {
  const [, text] = EMBEDDED.exec(readFileSync(PAGE, "utf8"));
  return Buffer.from(text, "base64");
}

export function engineOfPage() {
  return Engine.load(moduleOfPage());
}

export function program(words, input) {
  const { status, stdout } = spawnSync(PROGRAM, words, { input, maxBuffer: 1 << 26 });
  return { status, text: stdout.toString("latin1") };
}

/** Numbers from 0 that a seed draws (Park and Miller, 1988). */
export function drawn(seed) {
  let state = seed;
  return (most) => (state = (state * 48271) % 2147483647) % most;
}
