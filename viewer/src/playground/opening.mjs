// Files that are dropped on the page or chosen, and texts that are pasted.
import {byId} from "../svg.mjs";

/** Larger files are refused before they are read. */
export const MOST_BYTES = 1 << 26;

/** @param {EventTarget | null} target */
function takesText(target) {
  return target instanceof Element && target.matches("input, textarea, select");
}

/**
 * Passes on the bytes and the name of each file or text; a pasted text has an empty name.
 * @param {(bytes: Uint8Array, name: string) => Promise<void>} open
 * @param {(wrong: Wrong) => void} refuse
 */
export function listenToFiles(open, refuse) {
  /** @param {File | undefined} file */
  const take = async (file) => {
    if (!file) {
      return;
    }
    if (file.size > MOST_BYTES) {
      refuse({
        said: `${file.name} has ${Math.ceil(file.size / 1e6)} MB, and this page opens ${MOST_BYTES >> 20} MB at most.`,
        line: ""
      });
      return;
    }
    try {
      await open(new Uint8Array(await file.arrayBuffer()), file.name);
    } catch (wrong) {
      refuse({ said: `${file.name} can't be read: ${wrong.message}.`, line: "" });
    }
  };
  /** @param {boolean} on */
  const mark = (on) => document.body.classList.toggle("dropping", on);
  document.addEventListener("dragover", (event) => {
    event.preventDefault();
    mark(true);
  });
  document.addEventListener("dragleave", (event) => event.relatedTarget === null && mark(false));
  document.addEventListener("drop", (event) => {
    event.preventDefault();
    mark(false);
    take(event.dataTransfer.files[0]);
  });
  document.addEventListener("paste", (event) => {
    const { files } = event.clipboardData;
    const text = event.clipboardData.getData("text/plain");
    if (takesText(event.target) || (files.length === 0 && text === "")) {
      return;
    }
    event.preventDefault();
    if (files.length > 0) {
      take(files[0]);
    } else {
      open(new TextEncoder().encode(text), "");
    }
  });
  const field = /** @type {HTMLInputElement} */ (byId("open"));
  field.addEventListener("change", () => {
    take(field.files[0]);
    field.value = "";
  });
}
