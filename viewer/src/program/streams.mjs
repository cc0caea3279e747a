// Standard streams and files, read and written in pieces and at once, as a program without an event loop does.

/**
 * The calls of Node's file system that are used here.
 * @typedef {object} Files
 * @property {(path: string, flags: string) => number} openSync
 * @property {(handle: number) => void} closeSync
 * @property {(handle: number, room: Uint8Array, at: number, size: number, place: null) => number} readSync
 * @property {(handle: number, bytes: Uint8Array, at: number, size: number) => number} writeSync
 */

const PIECE = 1 << 16;
// how many milliseconds to wait for a stream that is not ready
const WAIT = 5;

/** A read or a write that failed; `code` is the system's name for why. */
export class StreamFault extends Error {
  /**
   * @param {"read" | "write"} way
   * @param {any} cause
   */
  constructor(way, cause) {
    super(`${way} failed`);
    this.way = way;
    this.code = String(cause?.code ?? "");
  }
}

/**
 * What an act on a stream returns, once the stream is ready. Throws `StreamFault`.
 * @template Result
 * @param {"read" | "write"} way
 * @param {() => Result} act
 */
function once(way, act) {
  const clock = new Int32Array(new SharedArrayBuffer(4));
  for (;;) {
    try {
      return act();
    } catch (wrong) {
      if (wrong.code !== "EAGAIN") {
        throw new StreamFault(way, wrong);
      }
      Atomics.wait(clock, 0, 0, WAIT);
    }
  }
}

/** Reads a stream in pieces. */
export class Source {
  /**
   * @param {Files} files
   * @param {string | null} path of a file, or null for standard input; opened at once. Throws `StreamFault`.
   */
  constructor(files, path) {
    this.files = files;
    this.handle = path === null ? 0 : once("read", () => files.openSync(path, "r"));
    this.room = new Uint8Array(PIECE);
  }

  /** The next bytes, valid until the next call; none at the end. Throws `StreamFault`. */
  read() {
    const { files, handle, room } = this;
    const size = once("read", () => {
      try {
        return files.readSync(handle, room, 0, room.length, null);
      } catch (wrong) {
        // what Windows says at the end of a pipe
        if (wrong.code === "EOF") {
          return 0;
        }
        throw wrong;
      }
    });
    return room.subarray(0, size);
  }

  close() {
    if (this.handle !== 0) {
      this.files.closeSync(this.handle);
    }
  }
}

/**
 * Writes all bytes. Throws `StreamFault`.
 * @param {Files} files
 * @param {number} handle
 * @param {Uint8Array} bytes
 */
export function writeAll(files, handle, bytes) {
  let at = 0;
  while (at < bytes.length) {
    at += once("write", () => files.writeSync(handle, bytes, at, Math.min(PIECE, bytes.length - at)));
  }
}
