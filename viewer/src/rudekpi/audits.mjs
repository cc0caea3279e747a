// Judges transcripts by the engine's audit. rudekpi.d.ts documents the calls.
import {DONE, Engine, inUse, NO_SESSION} from "./engine.mjs";
import {Damaged, MemoryError} from "./errors.mjs";
import {shown} from "./names.mjs";

export const VERDICT_BYTES = 32;
// how many bytes an audit gets at once
const PIECE = 1 << 20;
const ACCEPTED = 0;
const WHYS = ["", "bad header", "not a transcript line", "out of order", "not the machine's reply", "bad base"];

/** @typedef {{ entries: number, epochs: number, moves: number }} Summary */

/**
 * @param {any} text
 * @returns {Uint8Array}
 */
export function bytesOf(text) {
  if (typeof text === "string") {
    return new TextEncoder().encode(text);
  }
  if (text instanceof ArrayBuffer) {
    return new Uint8Array(text);
  }
  if (ArrayBuffer.isView(text)) {
    return new Uint8Array(text.buffer, text.byteOffset, text.byteLength);
  }
  throw new TypeError(`a transcript is a text or bytes, and not ${shown(text)}`);
}

/**
 * Reads a verdict. Throws `Damaged` or `MemoryError`.
 * @param {Engine} engine
 * @param {bigint} at
 * @returns {Summary}
 */
export function readVerdict(engine, at) {
  const told = new DataView(engine.memory.buffer, Number(at), VERDICT_BYTES);
  const [kind, entries, epochs] = [0, 4, 8].map((place) => told.getUint32(place, true));
  const [moves, line] = [16, 24].map((place) => Number(told.getBigUint64(place, true)));
  if (kind === ACCEPTED) {
    return { entries, epochs, moves };
  }
  if (kind >= WHYS.length) {
    throw new MemoryError("no memory for an audit");
  }
  throw new Damaged(line, WHYS[kind]);
}

/**
 * @param {Engine} engine
 * @param {any} text
 */
export function summaryOf(engine, text) {
  const judge = new Audit(engine);
  try {
    // a long text is passed in pieces; a character beyond ASCII is in no transcript, however the text is cut
    for (let at = 0; at < text.length; at += PIECE) {
      judge.feed(typeof text === "string" ? text.slice(at, at + PIECE) : bytesOf(text).subarray(at, at + PIECE));
    }
    return judge.finish();
  } finally {
    judge.close();
  }
}

/** @param {string | ArrayBuffer | ArrayBufferView} text */
export function audit(text) {
  return summaryOf(inUse.engine, typeof text === "string" ? text : bytesOf(text));
}

/** @type {FinalizationRegistry<{ engine: Engine, slot: bigint }>} */
const FORGOTTEN = new FinalizationRegistry(({ engine, slot }) => {
  engine.calls.rudekpi_audit_free(slot);
  engine.calls.rudekpi_give_back(slot);
});

export class Audit {
  /** @type {Engine} */
  #engine;
  /** @type {bigint} */
  #slot;
  /**
   * The result: a summary, or the error to throw.
   * @type {{ summary?: Summary, wrong?: Error } | null}
   */
  #verdict = null;

  /** @param {Engine} engine by default the engine of the module */
  constructor(engine = inUse.engine) {
    this.#engine = engine;
    this.#slot = engine.slot();
    if (engine.calls.rudekpi_audit_new(this.#slot) !== DONE) {
      engine.calls.rudekpi_give_back(this.#slot);
      throw new MemoryError("no memory for an audit");
    }
    FORGOTTEN.register(this, { engine, slot: this.#slot }, this);
  }

  /** @param {string | ArrayBuffer | ArrayBufferView} piece */
  feed(piece) {
    const bytes = bytesOf(piece);
    const engine = this.#engine;
    const status = engine.calls.rudekpi_audit_feed(this.#slot, engine.give(bytes), BigInt(bytes.length));
    if (status !== DONE) {
      this.finish();
    }
    if (status === NO_SESSION) {
      throw new TypeError("the audit is over");
    }
  }

  finish() {
    if (this.#verdict === null && this.#slot !== this.#engine.nowhere) {
      this.#verdict = this.#end();
      this.close();
    }
    if (this.#verdict === null) {
      throw new TypeError("the audit is closed");
    }
    if (this.#verdict.wrong) {
      throw this.#verdict.wrong;
    }
    return this.#verdict.summary;
  }

  close() {
    const engine = this.#engine;
    if (this.#slot !== engine.nowhere) {
      FORGOTTEN.unregister(this);
      engine.calls.rudekpi_audit_free(this.#slot);
      engine.calls.rudekpi_give_back(this.#slot);
      this.#slot = engine.nowhere;
    }
  }

  #end() {
    const engine = this.#engine;
    const at = engine.taken.of(VERDICT_BYTES);
    engine.calls.rudekpi_audit_finish(this.#slot, at);
    try {
      return { summary: readVerdict(engine, at) };
    } catch (wrong) {
      return { wrong };
    }
  }
}
