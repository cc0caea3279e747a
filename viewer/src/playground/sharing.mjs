// A script in the page's address: `#script=link+1+2;drive+7+100&rules=manne&nodes=4`. Its author is unknown,
// so it is only ever text for the engine.
import {MOST_NODES} from "./presets.mjs";

const MOST_CHARACTERS = 4000;
/** A network that is drawn here has at most this many names. */
export const MOST_NAMES = MOST_NODES + 100;

export class AddressFault extends Error {}

/**
 * @param {URLSearchParams} fields
 * @param {string} key
 * @param {number} least
 * @param {number} most
 */
function numberOf(fields, key, least, most) {
  const word = fields.get(key);
  if (word === null) {
    return null;
  }
  if (!/^\d{1,5}$/.test(word) || Number(word) < least || Number(word) > most) {
    throw new AddressFault(`${key} has to be a number from ${least} to ${most}`);
  }
  return Number(word);
}

/**
 * The greatest name in the lines of a script, and at least 2.
 * @param {string[]} lines
 */
export function namesIn(lines) {
  const spoken =
    lines.filter((line) => /^(?:link|unlink|point|flag|join|leave|step|show) /.test(line))
      .flatMap((line) => (line.startsWith("flag") ? line.match(/\d+/g)?.slice(0, 1) : line.match(/\d+/g)) ?? []);
  return spoken.reduce((most, word) => Math.max(most, word.length < 6 ? Number(word) : 0), 2);
}

/**
 * The script of an address with its network, or null if it holds none. Throws `AddressFault` if it is
 * malformed. The lines are left to the engine.
 * @param {string} hash
 */
export function readAddress(hash) {
  const fields = new URLSearchParams(hash.replace(/^#/, ""));
  const script = fields.get("script");
  if (script === null) {
    return null;
  }
  if (script.length > MOST_CHARACTERS) {
    throw new AddressFault(`a script of ${script.length} characters is longer than ${MOST_CHARACTERS}`);
  }
  const lines = script.split(/[;\n]/).filter((line) => line !== "");
  const rules = fields.get("rules") ?? "hh";
  if (rules !== "hh" && rules !== "manne") {
    throw new AddressFault("rules are hh or manne");
  }
  const names = numberOf(fields, "nodes", 0, MOST_NAMES) ?? Math.min(MOST_NAMES, namesIn(lines));
  const present = numberOf(fields, "present", 0, names) ?? names;
  return { rules: /** @type {RuleName} */ (rules), names, present, lines };
}

/**
 * The end of an address that holds a lab's script, or null if that is too long.
 * @param {{ rules: string, names: number, present: number, lines: string[] }} lab
 */
export function writeAddress({rules, names, present, lines}) {
  const script = lines.join(";");
  if (script.length > MOST_CHARACTERS) {
    return null;
  }
  const words = encodeURIComponent(script).replaceAll("%20", "+").replaceAll("%3B", ";");
  return `#script=${words}&rules=${rules}&nodes=${names}${present === names ? "" : `&present=${present}`}`;
}
