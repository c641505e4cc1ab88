// The address after the #: the part of the page, and its values.

/**
 * @typedef {{ tab: string, values: URLSearchParams }} Address
 * @typedef {Record<string, string | number>} Values the values of a part; empty ones are omitted from an address
 */

/** @returns {Address} */
export function address() {
  const [tab, ...rest] = location.hash.slice(1).split("?");
  return {tab, values: new URLSearchParams(rest.join("?"))};
}

let due = 0;
let shown = "";
let isStep = false;

/**
 * Sets the part that is shown, to which the address belongs.
 * @param {string} tab
 */
export function giveAddress(tab) {
  window.clearTimeout(due);
  shown = tab;
  isStep = false;
}

/**
 * Puts a part of the page into the address, with an entry in the history.
 * @param {string} tab
 */
export function openAddress(tab) {
  giveAddress(tab);
  if (address().tab === tab) return;
  put(`#${tab}`, true);
}

/** @param {string} wanted @param {boolean} isNew whether it is a new entry in the history */
function put(wanted, isNew) {
  try {
    if (isNew)
      history.pushState(null, "", wanted);
    else
      history.replaceState(null, "", wanted);
  } catch {
    location.hash = wanted;
  }
}

/** @param {string} tab @param {Values} values */
function hash(tab, values) {
  const kept = new URLSearchParams();
  for (const [key, value] of Object.entries(values))
    if (value !== "") kept.set(key, String(value));
  return `#${tab}${String(kept) && `?${kept}`}`;
}

/**
 * Puts a part of the page and its values into the address. Does nothing for a part that is not shown.
 * @param {string} tab
 * @param {Values} values
 * @param {boolean} [isNew] whether it is a step to which Back returns: a new entry in the history
 */
export function setAddress(tab, values, isNew = false) {
  if (tab !== shown) return;
  const wanted = hash(tab, values);
  // Browsers limit the number of changes per second. An address that a person opens meanwhile is kept.
  window.clearTimeout(due);
  isStep ||= isNew;
  const before = location.hash;
  due = window.setTimeout(() => {
    const isPushed = isStep;
    isStep = false;
    if (location.hash === before && before !== wanted) put(wanted, isPushed);
  }, 150);
}

/**
 * The page's address with a part and its values.
 * @param {string} tab
 * @param {Values} values
 */
export function link(tab, values) {
  return location.href.split("#")[0] + hash(tab, values);
}
