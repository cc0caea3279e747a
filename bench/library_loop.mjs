// Times an entry by the module for JavaScript: node bench/library_loop.mjs MODULE ENTRIES. Prints a line for
// each way with its nanoseconds, as bench/library reads them.
import {pathToFileURL} from "node:url";

const [path, entries] = process.argv.slice(2);
const { Network } = await import(pathToFileURL(path));

// how many parts of the calls are timed; the code is still compiled during the first ones
const PARTS = 20;

/**
 * The nanoseconds of a call, in the fastest part of all calls.
 * @param {number} calls
 * @param {() => void} call
 */
function timed(calls, call) {
  const each = Math.ceil(calls / PARTS);
  let least = Infinity;
  for (let part = PARTS; part > 0; part -= 1) {
    const began = process.hrtime.bigint();
    for (let left = each; left > 0; left -= 1) {
      call();
    }
    least = Math.min(least, Number(process.hrtime.bigint() - began) / each);
  }
  return least;
}

const count = Number(entries);
const net = new Network("hh", 2);
const link = new Network("hh", 2);
console.log("show", timed(count, () => net.show(1)));
console.log("status", timed(count, () => net.status()));
console.log("enabled", timed(count, () => net.enabled()));
let linked = false;
console.log("link", timed(count, () => {
              linked ? link.unlink(1, 2) : link.link(1, 2);
              linked = !linked;
            }));
console.log("partner", timed(count, () => net.partner(1)));
console.log("reach", timed(count, () => net.reach("link", 1, 2)));
