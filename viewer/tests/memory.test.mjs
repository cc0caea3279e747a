// The module when memory is refused: its limit is set to each number of pages in turn, so that each growth is
// refused once. A refused growth is reported, changes nothing, and the module goes on.
import assert from "node:assert/strict";
import test from "node:test";
import {Audit} from "../src/rudekpi/audits.mjs";
import {Engine, inUse, NO_MEMORY, Session} from "../src/rudekpi/engine.mjs";
import {EngineFault, MemoryError} from "../src/rudekpi/errors.mjs";
import {Network} from "../src/rudekpi/network.mjs";
import {moduleOfPage, program, whatIsMissing} from "./wasm.mjs";

const PAGE = 65536;
const MEMORY_SECTION = 5;
const NAMES = 12000;
const LINKED = 2500;
const skip = whatIsMissing();

/** A number as WebAssembly writes it (LEB128), 7 bits a byte. */
function encoded(number) {
  return number < 128 ? [number] : [(number % 128) | 128, ...encoded(Math.floor(number / 128))];
}

/** A number of that form, and its end. */
function decoded(bytes, at) {
  let [value, scale, end] = [0, 1, at];
  do {
    value += (bytes[end] & 127) * scale;
    scale *= 128;
    end += 1;
  } while (bytes[end - 1] & 128);
  return [value, end];
}

/** The memory section: its content, its place, and the initial number of pages. */
function memoryOf(bytes) {
  for (let at = 8; at < bytes.length;) {
    const [size, start] = decoded(bytes, at + 1);
    if (bytes[at] === MEMORY_SECTION) {
      assert.deepEqual([bytes[start], bytes[start + 1]], [1, 0], "one memory of 32 bits, without a limit");
      return { at, end: start + size, pages: decoded(bytes, start + 2)[0] };
    }
    at = start + size;
  }
  throw new Error("the module has no memory");
}

/** The module with a memory of at most this many pages. */
function limited(bytes, most) {
  const { at, end, pages } = memoryOf(bytes);
  const content = [1, 1, ...encoded(pages), ...encoded(most)];
  return Uint8Array.from(
    [...bytes.subarray(0, at), MEMORY_SECTION, ...encoded(content.length), ...content, ...bytes.subarray(end)]);
}

/** A script whose network, answers and base grow, without lines that have several turns. */
function linesOfGrowth() {
  const lines = [];
  for (let v = 1; v < LINKED; v += 1) {
    lines.push(`link ${v} ${v + 1}`, `point ${v} ${v + 1}`);
    if (v % 500 === 0) {
      lines.push("enabled", "checkpoint", "matching");
    }
  }
  return [...lines, "enabled", "checkpoint"];
}

/**
 * Feeds all lines, and skips those that memory is refused for. Returns the lines that were carried out, and
 * the text.
 */
function played(engine, lines) {
  const session = new Session(engine, "hh", NAMES, NAMES);
  const [done, parts] = [[], [session.read()]];
  for (const line of lines) {
    try {
      session.feed(line);
      done.push(line);
    } catch (wrong) {
      assert.ok(
        (wrong instanceof EngineFault && wrong.status === NO_MEMORY) || wrong instanceof MemoryError, `${wrong}`);
    }
    try {
      parts.push(session.read());
    } catch (wrong) {
      // the text stays, and is read when there is room
      assert.ok(wrong instanceof MemoryError, `${wrong}`);
    }
  }
  let text = null;
  try {
    text = parts.join("") + session.read();
  } catch (wrong) {
    assert.ok(wrong instanceof MemoryError, `${wrong}`);
  }
  session.free();
  return { done, text };
}

test(
  "a module whose memory does not grow beyond a limit says so, and promises no byte beyond it", { skip }, async () => {
    const bytes = moduleOfPage();
    const { pages } = memoryOf(bytes);
    // one page is left of the limit, or three, or sixteen and more; each growth asks for at least sixteen
    for (const most of [pages + 1, pages + 3, pages + 16, pages + 40]) {
      const engine = await Engine.load(limited(bytes, most)).catch((wrong) => wrong);
      if (most < pages + 16) {
        assert.ok(engine instanceof Engine || engine instanceof MemoryError, `${engine}`);
      }
      if (engine instanceof Engine) {
        assert.equal(engine.calls.rudekpi_room(BigInt(PAGE * 64)), 0n, `${most} pages`);
        const at = engine.calls.rudekpi_room(1000n);
        assert.ok(Number(at) + 1000 <= engine.memory.buffer.byteLength, `${most} pages`);
      }
    }
  });

test("each growth is refused in turn: what could not be done was not done, and the rest is", { skip }, async () => {
  const bytes = moduleOfPage();
  const lines = linesOfGrowth();
  const whole = await Engine.load(bytes);
  const { pages } = memoryOf(bytes);
  assert.equal(played(whole, lines).done.length, lines.length);
  const needed = whole.memory.buffer.byteLength / PAGE;
  assert.ok(needed > pages + 40, `${needed} pages for a script that is to grow`);
  let [cut, full, unread] = [0, 0, 0];
  for (let most = pages; most <= needed; most += 4) {
    const engine = await Engine.load(limited(bytes, most)).catch((wrong) => wrong);
    if (engine instanceof MemoryError) {
      continue;
    }
    let came;
    try {
      came = played(engine, lines);
    } catch (wrong) {
      // no network at all
      assert.ok(
        wrong instanceof MemoryError || (wrong instanceof EngineFault && wrong.status === NO_MEMORY), `${wrong}`);
      continue;
    }
    const { done, text } = came;
    cut += done.length < lines.length ? 1 : 0;
    full += done.length === lines.length ? 1 : 0;
    unread += text === null ? 1 : 0;
    if (text !== null) {
      const script = done.map((line) => `${line}\n`).join("");
      assert.equal(text, program(["run", "--rules", "hh", "--nodes", `${NAMES}`], script).text, `${most} pages`);
    }
  }
  assert.ok(cut > 3 && full > 0 && unread < cut, `${cut} cut short, ${full} whole, ${unread} not read`);
});

test("a transcript to go on from is refused whole if memory runs out", { skip }, async () => {
  const bytes = moduleOfPage();
  const { text } = played(await Engine.load(bytes), linesOfGrowth());
  const { pages } = memoryOf(bytes);
  const before = inUse.engine;
  let [refused, begun] = [0, 0];
  try {
    for (let most = pages + 16; begun < 3; most += 4) {
      inUse.engine = await Engine.load(limited(bytes, most));
      try {
        const net = Network.resume(text);
        assert.equal(net.transcript().slice(0, 12), "matching2 hh");
        net.close();
        begun += 1;
      } catch (wrong) {
        assert.ok(wrong instanceof MemoryError, `${wrong}`);
        assert.equal(begun, 0, `${most} pages`);
        refused += 1;
      }
    }
  } finally {
    inUse.engine = before;
  }
  assert.ok(refused > 3, `${refused} refused`);
});

test("networks and audits throw a MemoryError, and live on", { skip }, async () => {
  const bytes = moduleOfPage();
  const before = inUse.engine;
  try {
    inUse.engine = await Engine.load(limited(bytes, memoryOf(bytes).pages + 64));
    const net = new Network("manne", 3);
    assert.deepEqual(net.link(1, 2), { entry: 1 });
    const others = [];
    assert.throws(() => {
      for (;;) {
        others.push(new Network("manne", 2000));
      }
    }, { name: "MemoryError", message: "no memory for a network" });
    assert.throws(() => {
      for (;;) {
        others.push(new Audit());
      }
    }, MemoryError);
    assert.deepEqual(net.link(2, 3), { entry: 2 });
    assert.equal(net.status().edges, 2);
    // memory that one frees another takes, and the text needs room too
    assert.ok(others.length > 3);
    others.pop().close();
    others[0].close();
    const next = new Network("manne", 2000);
    others[1].close();
    assert.equal(next.status().nodes, 2000);
    assert.equal(net.transcript().split("\n", 3).join("\n"), "matching manne 3\n1 link 1 2 = ok\n2 link 2 3 = ok");
  } finally {
    inUse.engine = before;
  }
});
