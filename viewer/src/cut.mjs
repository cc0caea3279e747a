// Transcripts whose end is cut, as by a crash.

/**
 * The part of a transcript before its cut end, or null if its end is not cut or no part is accepted: the lines
 * before the first wrong line, or before the base that this line cuts.
 * @param {string} text
 * @param {number} line the first wrong one, from 1
 * @param {(text: string) => boolean} isAccepted
 */
export function beforeCut(text, line, isAccepted) {
  const lines = text.split("\n");
  if (line !== lines.length) {
    return null;
  }
  const whole = text.slice(0, text.length - lines[line - 1].length);
  const base = text.lastIndexOf("\nmatching2 ") + 1;
  return [whole, text.slice(0, base)].find((part) => part !== "" && isAccepted(part)) ?? null;
}
