// Texts that are too large for the session storage, kept in the browser's database under a ticket each. A
// tab knows its tickets; texts that no tab has used for a week are removed.

const [BASE, STORE, USED] = ["rudekpi", "texts", "used"];
const WEEK = 7 * 24 * 3_600_000;
const MOST = 16;
// how many milliseconds a browser has to answer
const LATE = 20_000;

/** @typedef {{ text: string, used: number }} Held */

/**
 * What a request of the database returns.
 * @template Result
 * @param {IDBRequest<Result>} request
 * @returns {Promise<Result>}
 */
function answered(request) {
  return new Promise((resolve, reject) => {
    const late = setTimeout(() => reject(new Error("the database does not answer")), LATE);
    request.onsuccess = () => {
      clearTimeout(late);
      resolve(request.result);
    };
    request.onerror = () => {
      clearTimeout(late);
      reject(request.error);
    };
  });
}

/** @returns {Promise<IDBDatabase>} */
async function base() {
  const request = indexedDB.open(BASE, 1);
  request.onupgradeneeded = () => request.result.createObjectStore(STORE).createIndex(USED, USED);
  return answered(request);
}

/**
 * What an act on the texts returns, once all that it changed is kept. Rejects if the browser has no database,
 * or no room.
 * @template Result
 * @param {(texts: IDBObjectStore) => Promise<Result>} act
 * @returns {Promise<Result>}
 */
async function changed(act) {
  const opened = await base();
  try {
    const change = opened.transaction(STORE, "readwrite");
    const done = new Promise((resolve, reject) => {
      change.oncomplete = resolve;
      change.onabort = () => reject(change.error ?? new Error("the database has no room"));
    });
    const [result] = await Promise.all([act(change.objectStore(STORE)), done]);
    return result;
  } finally {
    opened.close();
  }
}

/**
 * Keeps a text.
 * @param {string} ticket
 * @param {string} text
 */
export async function putText(ticket, text) {
  await changed(async (texts) => {
    texts.put({ text, used: Date.now() }, ticket);
  });
}

/** Removes the texts that no tab has used for a week, and the oldest if there are too many. */
export async function removeOldTexts() {
  await changed(async (texts) => {
    const used = texts.index(USED);
    const old = await answered(used.getAllKeys(IDBKeyRange.upperBound(Date.now() - WEEK)));
    const all = await answered(used.getAllKeys());
    new Set([...old, ...all.slice(0, -MOST)]).forEach((ticket) => texts.delete(ticket));
  });
}

/**
 * The text of a ticket, or null if there is none.
 * @param {string} ticket
 * @returns {Promise<string | null>}
 */
export function textOf(ticket) {
  return changed(async (texts) => {
    const held = /** @type {Held | undefined} */ (await answered(texts.get(ticket)));
    if (held === undefined) {
      return null;
    }
    texts.put({...held, used: Date.now() }, ticket);
    return held.text;
  });
}
