// Saves the visible drawing as a file: SVG, or PNG made by the browser.
import {byId} from "./svg.mjs";

const TEXT_STYLES = ["fill", "font-size", "font-weight", "font-family", "text-anchor"];
const SHAPE_STYLES =
  ["fill", "stroke", "stroke-width", "stroke-dasharray", "stroke-linecap", "opacity", "fill-opacity"];
// the value of a property without a declaration
/** @type {Record<string, string>} */
const PLAIN = {
  stroke: "none",
  "stroke-width": "1px",
  "stroke-dasharray": "none",
  "stroke-linecap": "butt",
  opacity: "1",
  "fill-opacity": "1"
};
const DROPPED = /^(class|tabindex|role|aria-.*|data-.*)$/;
// a PNG is twice as fine as the screen, and at least this many pixels wide or high
const PNG_SCALE = 2;
const PNG_PIXELS = 1600;
const MOST_PIXELS = 8192;

/** @param {Element} element */
function isSeen(element) {
  const style = getComputedStyle(element);
  return style.display !== "none" && style.visibility !== "hidden";
}

/**
 * @param {Element} element
 * @param {Element} copy
 */
function writeStyles(element, copy) {
  const style = getComputedStyle(element);
  for (const name of element.localName === "text" ? TEXT_STYLES : SHAPE_STYLES) {
    const value = style.getPropertyValue(name);
    if (value !== PLAIN[name]) {
      copy.setAttribute(name, value);
    }
  }
}

/**
 * @param {Element} element
 * @param {Element} copy
 */
function writeScale(element, copy) {
  const { scale } = getComputedStyle(element);
  if (scale && scale !== "none" && scale !== "1") {
    copy.setAttribute("transform", `scale(${scale}) ${element.getAttribute("transform") ?? ""}`.trim());
  }
}

/**
 * A self-contained copy of an element, without style sheet.
 * @param {Element} element
 * @param {boolean} always whether to copy it if it is not visible
 * @returns {Element}
 */
function copyOf(element, always) {
  const made = /** @type {Element} */ (element.cloneNode(false));
  for (const { name } of [...element.attributes].filter(({ name }) => DROPPED.test(name))) {
    made.removeAttribute(name);
  }
  writeScale(element, made);
  if (element.children.length === 0) {
    writeStyles(element, made);
  }
  for (const child of element.childNodes) {
    if (child.nodeType === Node.TEXT_NODE) {
      made.append(child.cloneNode());
    } else if (child instanceof Element && (always || child.localName === "defs" || isSeen(child))) {
      made.append(copyOf(child, always || child.localName === "defs"));
    }
  }
  return made;
}

/**
 * A copy of the drawing, with all names and arrowheads.
 * @param {SVGSVGElement} svg
 */
function drawingOf(svg) {
  const nameless = svg.classList.contains("nameless");
  svg.classList.remove("nameless");
  const made = copyOf(svg, false);
  if (!svg.querySelector("defs")) {
    made.prepend(copyOf(document.querySelector("#marks defs"), true));
  }
  svg.classList.toggle("nameless", nameless);
  return made;
}

/**
 * A self-contained SVG file of an SVG element, on the page's paper.
 * @param {SVGSVGElement} svg
 * @param {string} title
 */
export function standalone(svg, title) {
  const made = drawingOf(svg);
  const [left, top, width, height] = svg.getAttribute("viewBox").split(" ").map(Number);
  const paper = document.createElementNS(svg.namespaceURI, "rect");
  const colour = getComputedStyle(document.body).backgroundColor;
  Object.entries({ x: left, y: top, width, height, fill: colour })
    .forEach(([key, value]) => paper.setAttribute(key, String(value)));
  const name = document.createElementNS(svg.namespaceURI, "title");
  name.textContent = title;
  made.prepend(name, paper);
  made.removeAttribute("id");
  const scale = Math.min(svg.clientWidth / width, svg.clientHeight / height);
  made.setAttribute("width", String(Math.round(width * scale)));
  made.setAttribute("height", String(Math.round(height * scale)));
  return `${new XMLSerializer().serializeToString(made)}\n`;
}

/**
 * @param {string} text
 * @returns {Promise<Blob>}
 */
async function pngOf(text) {
  const image = new Image();
  image.src = `data:image/svg+xml;charset=utf-8,${encodeURIComponent(text)}`;
  await image.decode();
  const size = Math.max(image.width, image.height);
  const scale = Math.min(Math.max(PNG_SCALE, PNG_PIXELS / size), MOST_PIXELS / size);
  const canvas = document.createElement("canvas");
  [canvas.width, canvas.height] = [Math.round(image.width * scale), Math.round(image.height * scale)];
  canvas.getContext("2d").drawImage(image, 0, 0, canvas.width, canvas.height);
  return new Promise((done) => canvas.toBlob(done, "image/png"));
}

/**
 * @param {Blob} blob
 * @param {string} name
 */
function hand(blob, name) {
  const link = document.createElement("a");
  link.href = URL.createObjectURL(blob);
  link.download = name;
  link.click();
  setTimeout(() => URL.revokeObjectURL(link.href), 10_000);
}

/**
 * @param {string} svgButton
 * @param {string} pngButton
 * @param {() => { svg: SVGSVGElement, name: string, title: string }} told the picture, the file's
 *   name without its suffix, and the title
 */
export function listenToSaving(svgButton, pngButton, told) {
  byId(svgButton).addEventListener("click", () => {
    const { svg, name, title } = told();
    hand(new Blob([standalone(svg, title)], { type: "image/svg+xml" }), `${name}.svg`);
  });
  byId(pngButton).addEventListener("click", async () => {
    const { svg, name, title } = told();
    hand(await pngOf(standalone(svg, title)), `${name}.png`);
  });
}
