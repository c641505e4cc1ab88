// Sharing a battle: as a page that holds it, as a link, as an input and as log bytes.
import {copy, guarded, Problem, save} from "./dom.js";
import {isShort, toAddress} from "./inputs.js";

// The source of the page, copied before anything in it changes.
const SOURCE = `<!doctype html>\n${document.documentElement.outerHTML}`;

/** The JSON of the battle with which the page was saved; empty if there is none. */
export function heldBattle() {
  const text = document.getElementById("battle")?.textContent?.trim() ?? "";
  return text === "null" ? "" : text;
}

/**
 * The page with a battle. The first element with the id is the one in the head (web/README.md).
 * @param {string} battle JSON
 */
export function pageWith(battle) {
  const held = battle.replaceAll("<", "\\u003c");
  return SOURCE.replace(/(id="battle"[^>]*>)[^<]*(?=<)/, (_, begin) => begin + held);
}

/**
 * @typedef {{ recorded: import("./inputs.js").Recorded, log: Uint8Array, inputs: import("./inputs.js").Inputs, link: string }} Shown the
 *   shared battle, or as a log the viewer's knowledge of it; and the address of the position
 */

/** Whether the page was opened from a disk, so that its address means nothing elsewhere. */
function isLocal() {
  return location.protocol === "file:";
}

/**
 * The buttons that share the battle that is shown.
 * @param {HTMLElement} place
 * @param {() => Shown} shown
 */
export function shareButtons(place, shown) {
  const actions = {
    page: () => save("battle.html", pageWith(shown().inputs.text(shown().recorded)), "text/html"),
    link: () => {
      if (!isShort(toAddress(shown().recorded)))
        throw new Problem("The battle is too long for an address: save it as a page.");
      return copy(
          shown().link, isLocal() ? "The link is copied. It opens only where this file is." : "The link is copied.");
    },
    input: () => save("battle.json", shown().inputs.text(shown().recorded), "application/json"),
    log: () => save("battle.log", shown().log, "application/octet-stream"),
  };
  for (const [name, action] of Object.entries(actions))
    place.querySelector(`[data-share="${name}"]`)?.addEventListener("click", () => void guarded(action));
}
