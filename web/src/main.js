// The page: its parts, the address, keys, themes, and dropped files.
import {address, giveAddress, openAddress} from "./address.js";
import {Calculator} from "./calculator.js";
import {done, find, guarded, keep, kept, notice} from "./dom.js";
import {Engine} from "./engine.js";
import {drawHome} from "./home.js";
import {Inputs} from "./inputs.js";
import {Play} from "./play.js";
import {moduleOf, Players} from "./players.js";
import {Replay} from "./replay.js";
import {heldBattle} from "./share.js";
import {Teams} from "./teams.js";

const TABS = [...document.querySelectorAll("[role='tab']")].map(({id}) => id.replace("tab-", ""));

/**
 * @typedef {{ engine: Engine, play: Play, open: (tab: string) => void }} Parts
 * @typedef {{ route: (values: URLSearchParams) => void | Promise<void> }} Part
 */
/** @type {((parts: Parts) => Part) | null} */
let makeOnline = null;

/**
 * Adds the part Online, before the page begins.
 * @param {(parts: Parts) => Part} make
 */
export function extend(make) {
  makeOnline = make;
}

/** @param {string} name */
function showTab(name) {
  giveAddress(name);
  for (const tab of TABS) {
    const button = find(`tab-${tab}`, HTMLButtonElement);
    button.setAttribute("aria-selected", String(tab === name));
    button.tabIndex = tab === name ? 0 : -1;
    find(`panel-${tab}`, HTMLElement).hidden = tab !== name;
  }
}

function listenTheme() {
  const theme = find("theme", HTMLSelectElement);
  const put = () => (document.documentElement.dataset.theme = theme.value);
  theme.value = kept("theme") ?? "system";
  put();
  theme.addEventListener("change", () => {
    put();
    keep("theme", theme.value);
  });
}

/** Closes a menu by a press outside of it, on a button in it, or on Escape. */
function listenMenus() {
  const close = (/** @type {(menu: HTMLElement) => boolean} */ isClosed) => {
    for (const menu of /** @type {NodeListOf<HTMLDetailsElement>} */ (document.querySelectorAll(".menu[open]")))
      if (isClosed(menu)) menu.open = false;
  };
  document.addEventListener("click", ({target}) => {
    if (target instanceof Element) close((menu) => !menu.contains(target) || target.closest(".menu button") !== null);
  });
  document.addEventListener("keydown", ({key}) => key === "Escape" && close((menu) => {
    if (menu.contains(document.activeElement)) menu.querySelector("summary")?.focus();
    return true;
  }));
}

/** The speed of battles, and sounds. */
function listenMotion() {
  const [speed, sounds] = [find("speed", HTMLSelectElement), find("sounds", HTMLInputElement)];
  speed.value = kept("speed") ?? "normal";
  sounds.checked = kept("sounds") === "on";
  speed.addEventListener("change", () => keep("speed", speed.value));
  sounds.addEventListener("change", () => keep("sounds", sounds.checked ? "on" : "off"));
}

/**
 * Keys for the part that is shown.
 * @param {(event: KeyboardEvent) => void} press
 * @param {() => void} changed
 */
function listenKeys(press, changed) {
  const keys = find("keys", HTMLInputElement);
  keys.checked = kept("keys") !== "off";
  keys.addEventListener("change", () => {
    keep("keys", keys.checked ? "on" : "off");
    changed();
  });
  document.addEventListener("keydown", (event) => {
    // Single-key shortcuts can be switched off, because speech input may trigger them.
    if (event.key.length === 1 && !keys.checked) return;
    if (!takesKeys(event.target, event.key)) press(event);
  });
}

/**
 * Switches tabs by click and by arrow keys.
 * @param {(tab: string) => void} open
 */
function listenTabs(open) {
  for (const [at, tab] of TABS.entries()) {
    const button = find(`tab-${tab}`, HTMLButtonElement);
    button.addEventListener("click", () => open(tab));
    button.addEventListener("keydown", (event) => {
      const by = {ArrowLeft: -1, ArrowRight: 1}[event.key];
      if (!by) return;
      event.preventDefault();
      event.stopPropagation();
      const next = TABS[(at + by + TABS.length) % TABS.length];
      open(next);
      find(`tab-${next}`, HTMLButtonElement).focus();
    });
  }
}

/**
 * Whether an element handles a key itself.
 * @param {EventTarget | null} target
 * @param {string} key
 */
function takesKeys(target, key) {
  if (!(target instanceof HTMLElement)) return false;
  if (target.matches("input, select, textarea")) return true;
  return target.matches("button, summary, a, [tabindex='0']") && (key === " " || key === "Enter");
}

/** @param {Replay} replay @param {(tab: string) => void} open */
function listenDrops(replay, open) {
  // The browser handles drops of anything but a file, such as text on a field.
  const hasFile = (/** @type {DragEvent} */ event) => Boolean(event.dataTransfer?.types.includes("Files"));
  document.addEventListener("dragover", (event) => hasFile(event) && event.preventDefault());
  document.addEventListener("drop", (event) => {
    if (!hasFile(event)) return;
    event.preventDefault();
    const file = event.dataTransfer?.files[0];
    if (file)
      void guarded(async () => {
        open("replay");
        await replay.open(file);
      });
  });
}

async function begin() {
  const module = await moduleOf("module");
  const engine = await Engine.of(module);
  const inputs = new Inputs(engine);
  const calculate = (/** @type {import("./carried.js").Scene} */ scene) => {
    open("calculator");
    calculator.carry(scene);
  };
  const replay = new Replay(engine, inputs, calculate);
  const calculator = new Calculator(engine, (from) => {
    open(from);
    // Without a battle there, the button is hidden, and the tab keeps the focus.
    for (const id of [`tab-${from}`, `${from === "replay" ? from : "play"}-calculate`]) find(id, HTMLElement).focus();
  });
  let tab = "";
  const turnTo = (/** @type {string} */ name) => {
    tab = name;
    showTab(name);
    if (name !== "replay") replay.pause();
  };
  const open = (/** @type {string} */ name) => {
    openAddress(name);
    turnTo(name);
    if (name === "calculator")
      calculator.route(new URLSearchParams());
    else if (name === "teams")
      teams.route(new URLSearchParams());
    else if (name !== "home")
      (name === "replay" ? replay : play).toAddress();
  };
  const play = new Play(engine, inputs, new Players(engine, module), (recorded, at) => {
    open("replay");
    return replay.show(recorded, {at});
  }, calculate);
  const teams = new Teams(engine, (side, text) => {
    play.setup.put(side, text);
    open("play");
    done(`Side ${side} has the team.`);
  });
  const online = makeOnline?.({engine, play, open});
  const route = () => guarded(() => {
    const {tab: name, values} = address();
    turnTo(TABS.includes(name) ? name : heldBattle() ? "replay" : "home");
    if (tab === "replay")
      return replay.route(values, heldBattle());
    else if (tab === "play")
      play.route(values);
    else if (tab === "online")
      return online?.route(values);
    else if (tab === "teams")
      teams.route(values);
    else if (tab === "calculator")
      calculator.route(values);
  });
  drawHome(engine, {
    "home-watch": () => {
      open("replay");
      void replay.example().then(() => replay.start());
    },
    "home-open": () => {
      open("replay");
      find("replay-file", HTMLInputElement).focus();
    },
    "home-play": () => {
      play.setup.player(2).value = find("home-level", HTMLSelectElement).value;
      open("play");
      void guarded(() => play.start());
    },
    "home-teams": () => {
      open("play");
      find("play-teams", HTMLElement).focus();
    },
    "home-calculate": () => open("calculator"),
  });
  listenTabs(open);
  listenDrops(replay, open);
  listenKeys((event) => {
    if (tab === "replay")
      replay.key(event);
    else if (tab === play.tab)
      play.key(event);
  }, () => play.drawAgain());
  window.addEventListener("hashchange", () => void route());
  await route();
  document.documentElement.dataset.ready = "true";
}

listenTheme();
listenMotion();
listenMenus();
find("notice-close", HTMLButtonElement).addEventListener("click", () => notice(""));
begin().catch((error) => {
  console.error(error);
  notice(`The engine could not start: ${error instanceof Error ? error.message : error}`);
});
