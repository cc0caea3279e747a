// A session that goes on where the run of a transcript ended. rudekpi.d.ts documents the call.
import {readVerdict, VERDICT_BYTES} from "./audits.mjs";
import {DAMAGED, DONE, Engine, Session} from "./engine.mjs";
import {MemoryError} from "./errors.mjs";

/**
 * The session, whose text begins with the base there. Throws `Damaged` if the bytes are no transcript, and
 * `MemoryError` if memory runs out.
 * @param {Engine} engine
 * @param {Uint8Array} bytes
 */
export function resumed(engine, bytes) {
  const verdict = engine.taken.of(VERDICT_BYTES);
  const at = engine.roomFor(bytes.length + 1);
  let slot = 0n;
  try {
    slot = engine.slot();
    engine.bytesAt(at, bytes.length).set(bytes);
    const status = engine.calls.rudekpi_session_resume(slot, at, BigInt(bytes.length), verdict);
    if (status === DAMAGED) {
      readVerdict(engine, verdict);
    }
    if (status !== DONE) {
      throw new MemoryError("no memory for a network");
    }
    return new Session(engine, "hh", 0, 0, slot);
  } catch (wrong) {
    if (slot !== 0n) {
      engine.calls.rudekpi_give_back(slot);
    }
    throw wrong;
  } finally {
    engine.calls.rudekpi_give_back(at);
  }
}
