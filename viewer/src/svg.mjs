// Elements of the page.

/**
 * @param {Element} parent
 * @param {string} name
 * @param {Record<string, string | number>} attributes
 * @param {string} text
 * @returns {SVGElement}
 */
export function add(parent, name, attributes = {}, text = "") {
  const made = document.createElementNS("http://www.w3.org/2000/svg", name);
  for (const [key, value] of Object.entries(attributes)) {
    made.setAttribute(key, String(value));
  }
  made.textContent = text;
  parent.append(made);
  return made;
}

/**
 * @param {Element} parent
 * @param {string} name
 * @param {string} text
 */
export function addText(parent, name, text) {
  const made = document.createElement(name);
  made.textContent = text;
  parent.append(made);
  return made;
}

/** @param {string} id */
export function byId(id) {
  return document.getElementById(id);
}

/** @param {string} text */
export function nameWindow(text) {
  document.title = `${text} – Rudekpi`;
}

/** @param {string} id */
export function graphic(id) {
  return /** @type {SVGSVGElement} */ (/** @type {unknown} */ (document.getElementById(id)));
}

/** @param {string} id */
export function field(id) {
  return /** @type {HTMLInputElement} */ (document.getElementById(id));
}
