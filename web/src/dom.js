// Elements, messages, files, and what the browser keeps, for every part of the page. Settings are permanent, a battle is kept for its tab.

/**
 * Creates an element with attributes, listeners (values that are functions) and children.
 * @template {keyof HTMLElementTagNameMap} K
 * @param {K} name
 * @param {Record<string, string | number | boolean | undefined | ((event: any) => void)>} [attributes]
 * @param {...(Node | string | number | null)} children null is omitted
 * @returns {HTMLElementTagNameMap[K]}
 */
export function make(name, attributes = {}, ...children) {
  const made = document.createElement(name);
  for (const [key, value] of Object.entries(attributes)) {
    if (typeof value === "function")
      made.addEventListener(key, value);
    else if (value === true)
      made.setAttribute(key, "");
    else if (value !== false && value !== undefined)
      made.setAttribute(key, String(value));
  }
  for (const child of children)
    if (child !== null) made.append(typeof child === "number" ? String(child) : child);
  return made;
}

/**
 * The element of an id, of a kind.
 * @template {HTMLElement} T
 * @param {string} id
 * @param {new () => T} kind
 * @returns {T}
 */
export function find(id, kind) {
  const found = document.getElementById(id);
  if (!(found instanceof kind)) throw new Error(`the page has no ${kind.name} "${id}"`);
  return found;
}

/** An error that a person can fix, with a sentence that describes it. */
export class Problem extends Error {
  /**
   * @param {string} message
   * @param {{ field?: HTMLElement, side?: number }} [at] the wrong field, or the side whose team is wrong, if known
   */
  constructor(message, at = {}) {
    super(message);
    this.field = at.field;
    this.side = at.side;
  }
}

/**
 * Calls a function, and attributes its problems to a field.
 * @template T
 * @param {HTMLElement} field
 * @param {() => T} work
 * @returns {T}
 */
export function inField(field, work) {
  try {
    return work();
  } catch (error) {
    if (error instanceof Problem) error.field ??= field;
    throw error;
  }
}

/**
 * Marks the wrong field, and unmarks all others.
 * @param {HTMLElement | undefined} field
 * @param {string} message the id of the element with the error
 */
export function blame(field, message) {
  for (const blamed of document.querySelectorAll(`[aria-describedby="${message}"]`)) {
    blamed.removeAttribute("aria-invalid");
    blamed.removeAttribute("aria-describedby");
  }
  field?.setAttribute("aria-invalid", "true");
  field?.setAttribute("aria-describedby", message);
}

/**
 * Shows an error as an alert; an empty text removes the last one.
 * @param {string} text
 */
export function notice(text) {
  find("notice", HTMLElement).hidden = !text;
  find("notice-text", HTMLElement).textContent = text;
}

let fading = 0;

/**
 * Shows for a while that something was done, without an alert.
 * @param {string} text
 */
export function done(text) {
  window.clearTimeout(fading);
  find("done", HTMLElement).textContent = text;
  if (text) fading = window.setTimeout(() => done(""), 6000);
}

/** @param {unknown} error */
function show(error) {
  const field = error instanceof Problem ? error.field : undefined;
  if (!(error instanceof Problem)) console.error(error);
  notice(error instanceof Error ? error.message : String(error));
  blame(field, "notice-text");
  for (let it = field?.closest("details"); it; it = it.parentElement?.closest("details")) it.open = true;
  field?.focus();
}

/**
 * Calls a function, and shows any error as a message; the page keeps working.
 * @param {() => void | Promise<void>} work
 */
export async function guarded(work) {
  try {
    notice("");
    done("");
    blame(undefined, "notice-text");
    await work();
  } catch (error) {
    show(error);
  }
}

/**
 * Whether an element can have the focus.
 * @param {Element | null} element
 */
function isReached(element) {
  if (!element || element === document.body || element.matches(":disabled")) return false;
  return element.getClientRects().length > 0 && !element.closest("details:not([open]) > :not(summary)");
}

/**
 * Calls a function that may remove or hide the focused element, and then moves the focus to a heading.
 * @param {HTMLElement} heading
 * @param {() => void} work
 */
export function keepingFocus(heading, work) {
  const had = document.activeElement !== document.body;
  work();
  if (had && !isReached(document.activeElement)) heading.focus();
}

/**
 * Saves a file for the person.
 * @param {string} name
 * @param {BlobPart} content
 * @param {string} type
 */
export function save(name, content, type) {
  const url = URL.createObjectURL(new Blob([content], {type}));
  const link = make("a", {href: url, download: name});
  document.body.append(link);
  link.click();
  link.remove();
  setTimeout(() => URL.revokeObjectURL(url), 10_000);
}

/**
 * Copies a text, or shows it if copying is not allowed.
 * @param {string} text
 * @param {string} said the message when it is copied
 */
export async function copy(text, said) {
  try {
    await navigator.clipboard.writeText(text);
  } catch {
    throw new Problem(`The browser does not allow copying. Copy it from here: ${text}`);
  }
  done(said);
}

/**
 * The value that was kept under a name; null if there is none, or if storage is forbidden.
 * @param {string} name
 * @param {boolean} [isForTab]
 */
export function kept(name, isForTab) {
  try {
    return (isForTab ? sessionStorage : localStorage).getItem(name);
  } catch {
    return null;
  }
}

/** @param {string} name @param {string} value */
export function keep(name, value) {
  try {
    localStorage.setItem(name, value);
  } catch {
    // The setting lasts until the page is closed.
  }
}

/** @param {string} name @param {string} value */
export function keepForTab(name, value) {
  try {
    sessionStorage.setItem(name, value);
  } catch {
    // The battle lasts until the page is reloaded.
  }
}
