// Online: the battles at the server that the page is from. The battle itself is shown by Play.
import {link, setAddress} from "./address.js";
import {done, find, guarded, keepingFocus, make, Problem} from "./dom.js";
import {Lobby} from "./lobby.js";
import {extend} from "./main.js";
import {RemoteMatch} from "./remote.js";
import {Server} from "./server.js";
import {Table} from "./table.js";

/** @typedef {import("./server.js").Message} Message */

/** What only an account has in the lobby. */
const OWN = ["online-account", "online-play-card", "online-season-card"];
/** The fields that refusals are about, by their codes. */
const FIELDS = new Map([
  ["login", "password"], ["password", "password"], ["name", "name"], ["taken", "name"], ["no player", "to"],
  ["team", "team"]
]);

/**
 * A sentence of the server, which begins in lower case and has no full stop.
 * @param {string} said
 */
function sentence(said) {
  return `${said.charAt(0).toUpperCase()}${said.slice(1)}${/[.?!]$/.test(said) ? "" : "."}`;
}

/** The part of the page that plays at a server. */
class Online {
  /** @param {import("./main.js").Parts} parts */
  constructor({engine, play, open}) {
    this.engine = engine;
    this.play = play;
    this.open = open;
    this.name = "";
    /** @type {Map<number, RemoteMatch>} the battles that the server has sent, by the number of the room */
    this.matches = new Map();
    /** The room that is to be shown as soon as the server sends it. */
    this.wanted = 0;
    /** Whether the next battle of the account is shown at once, since this page has asked for it. */
    this.isSeeking = false;
    /** The type of the last request. */
    this.asked = "";
    this.server = new Server({
      said: (message) => void guarded(() => this.said(message)),
      lost: (seconds) => this.lost(seconds),
      back: () => this.back(),
    });
    this.lobby = new Lobby(engine, (type, fields) => this.ask(type, fields), this.server, (room) => this.show(room));
    this.table = new Table((type, fields) => void guarded(() => this.ask(type, fields)), () => this.play.leave());
    /** @type {RemoteMatch | null} the battle that was shown when the field was last drawn */
    this.before = null;
    play.drawn = () => this.drawn();
    this.listen();
    if (this.server.token) this.server.open();
  }

  listen() {
    const click = (/** @type {string} */ id, /** @type {() => void} */ work) =>
        find(id, HTMLElement).addEventListener("click", () => void guarded(work));
    find("online-login", HTMLFormElement).addEventListener("submit", (event) => {
      event.preventDefault();
      void guarded(() => this.enter(this.password ? "login" : "guest"));
    });
    click("online-register", () => this.enter("register"));
    click("online-logout", () => this.ask("logout", {token: this.server.token}));
    const button = make("button", {type: "button", click: () => this.open("online")}, "Play online");
    find("home-teams", HTMLElement).after(button);
  }

  get password() {
    return find("online-password", HTMLInputElement).value;
  }

  /** @returns {RemoteMatch | null} the battle at the server that is shown */
  get shown() {
    return this.play.match instanceof RemoteMatch ? this.play.match : null;
  }

  /** @param {string} type @param {Record<string, unknown>} [fields] */
  ask(type, fields) {
    this.asked = type;
    if (["search", "challenge", "accept", "rematch"].includes(type)) this.isSeeking = true;
    this.server.ask(type, fields);
  }

  /** @param {"login" | "guest" | "register"} how */
  enter(how) {
    const field = find("online-name", HTMLInputElement);
    const name = field.value.trim();
    if (!name) throw new Problem("Enter a name.", {field});
    if (how === "register" && !this.password)
      throw new Problem("Enter the password that the name is to have.", {field: find("online-password", HTMLElement)});
    this.ask(how, how === "guest" ? {name} : {name, password: this.password});
  }

  /**
   * Shows a battle as soon as its messages come.
   * @param {number} room
   */
  show(room) {
    const match = this.matches.get(room);
    if (match) return this.put(match);
    this.wanted = room;
    if (this.name || this.server.isReady)
      this.ask("join", {room});
    else
      this.server.open();
  }

  /** @param {RemoteMatch} match */
  put(match) {
    [this.wanted, this.isSeeking] = [0, false];
    this.open("online");
    this.play.open(match, false);
    find("play-now", HTMLElement).focus();
  }

  /**
   * For whom a side waits; empty if it does not.
   * @param {RemoteMatch} match
   */
  waiting({side, isOver, isAwaited, names}) {
    return side && !isOver && !isAwaited ? `Waiting for ${names?.[2 - side]}.` : "";
  }

  /** The field was drawn, perhaps with another battle than before. That battle then continues without the person. */
  drawn() {
    const {shown, before} = this;
    this.before = shown;
    this.table.draw(shown);
    if (shown && !this.play.isMoving) this.play.wait(this.waiting(shown));
    // The server closes the connection of somebody without a name who watches nothing.
    if (!this.name && !this.server.token && !this.wanted && (shown?.isOver ?? before)) this.server.close();
    if (!before || before.room === shown?.room) return;
    if (!before.side || before.isOver) this.matches.delete(before.room);
    if (!before.side && !before.isOver && this.server.isReady) this.ask("leave", {room: before.room});
    void this.lobby.look();
  }

  /**
   * Shows what an address names: a battle, or a challenge.
   * @param {URLSearchParams} values
   */
  route(values) {
    const [room, code] = [Number(values.get("r") ?? 0), values.get("c") ?? ""];
    if (code) this.lobby.called({code, from: values.get("by") ?? "", format: values.get("f") ?? ""});
    if (room && room !== this.shown?.room) return this.show(room);
    if (!room && this.shown) this.play.leave();
    void this.lobby.look();
    if (code && !this.name)
      find("online-why", HTMLElement).textContent = "Enter a name to answer the challenge. A guest needs no password.";
  }

  // ---- messages of the server ----

  /** @param {Message} message */
  said(message) {
    const {type} = message;
    if (type === "welcome")
      this.welcome(message);
    else if (type === "goodbye")
      this.exit();
    else if (type === "hello")
      this.greeted(message);
    else if (type === "room")
      this.begin(/** @type {any} */ (message));
    else if (type === "refused")
      this.refused(message);
    else if (type === "moved")
      this.moved(message);
    else if (type === "closing")
      this.say("The server is about to stop.");
    else if (type === "searching")
      this.lobby.searches(message.formats);
    else if (type === "challenged")
      this.called(message);
    else if (type === "challenging")
      this.lobby.challenging(message, (values) => link("online", values));
    else
      this.tell(message);
  }

  /** @param {Message} message */
  greeted(message) {
    this.lobby.greet(/** @type {any} */ (message));
    const {shown} = this;
    const room = this.wanted || (shown?.isOver ? 0 : shown?.room);
    // The server sends an account its battles without a request.
    if (room && !this.server.token) this.ask("join", {room});
  }

  /** @param {Message} message */
  called(message) {
    if (!message.code) return this.table.rematch(message.room ?? this.shown?.room);
    this.lobby.called(/** @type {any} */ (message));
    done(`${message.from} challenges you. The part Online has the challenge.`);
  }

  /**
   * A message about a battle.
   * @param {Message} message
   */
  tell(message) {
    const match = this.matches.get(message.room);
    if (!match) return;
    const isShown = match === this.shown;
    if (message.type === "update") {
      match.take(/** @type {any} */ (message));
      this.lobby.drawMine(this.matches);
      if (isShown) void guarded(() => this.play.follow());
    } else if (message.type === "taken")
      match.isAwaited &&= match.number !== message.number;
    else if (message.type === "draw_offered")
      match.draw = message.side;
    if (isShown) this.drawn();
  }

  /** @param {Message} message */
  welcome({name, token, rooms}) {
    this.name = name;
    if (token) this.server.token = token;
    find("online-password", HTMLInputElement).value = "";
    find("online-who", HTMLElement).textContent = name;
    keepingFocus(find("online-who", HTMLElement), () => {
      find("online-login", HTMLElement).hidden = true;
      for (const id of OWN) find(id, HTMLElement).hidden = false;
    });
    this.lobby.enter(name);
    // The server sends the open battles of the account without a request.
    const {shown} = this;
    this.matches = new Map([...this.matches].filter(([room]) => room === shown?.room));
    const room = this.wanted || (shown?.isOver ? 0 : shown?.room);
    if (room && !rooms.includes(room)) this.ask("join", {room});
  }

  /**
   * The whole of a battle: when it begins, and after the connection was lost.
   * @param {import("./remote.js").Room} room
   */
  begin(room) {
    const match = new RemoteMatch(this.engine, room, this.lobby.rules(room.format));
    match.act = (what, choice) => void guarded(() => {
      if (what === "rematch") return this.rematch(match);
      if (!this.server.isReady) this.again();
      this.ask("choose", {room: match.room, number: match.number, choice});
    });
    this.matches.set(room.room, match);
    this.lobby.begun(room, this.matches);
    const {shown} = this;
    const isFree = !shown?.side || shown.isOver;
    if (shown?.room === room.room)
      this.play.open(match, false);
    else if (room.room === this.wanted || (match.side && this.isSeeking && !match.isOver && isFree))
      this.put(match);
    if (!this.shown || this.shown === match) this.say("");
  }

  /** @param {RemoteMatch} match */
  rematch(match) {
    this.ask("rematch", {room: match.room});
    this.table.wanted.add(match.room);
    this.table.draw(match);
  }

  /** @param {Message} message */
  refused({code, said, asked = this.asked}) {
    if (code === "token") {
      this.exit();
      return this.say("You were logged out. Enter a name again.");
    }
    if (code === "elsewhere") return this.moved({room: this.wanted, address: said});
    if (asked === "choose") this.again();
    if (asked === "join") {
      this.wanted = 0;
      this.say("");
    }
    if (asked === "rematch") this.table.wanted.clear();
    const field = document.getElementById(`online-${FIELDS.get(code)}`) ?? undefined;
    throw new Problem(sentence(said), field?.getClientRects().length ? {field} : {});
  }

  /** Offers the choices again after one was refused. */
  again() {
    const {play, shown} = this;
    if (!shown) return;
    play.game.clear();
    play.wait("");
    play.drawChoices();
  }

  /** @param {Record<string, any>} message a battle that another process of the server has */
  moved({room, address}) {
    if (!address) throw new Problem(`Battle ${room} is at another address of this server.`);
    this.wanted = room;
    this.server.move(address);
  }

  /** The account has logged out, or its token isn't valid any more. */
  exit() {
    this.server.token = "";
    this.server.close();
    this.name = "";
    this.matches.clear();
    if (this.shown) this.play.leave();
    keepingFocus(find("online-head", HTMLElement), () => {
      find("online-login", HTMLElement).hidden = false;
      for (const id of OWN) find(id, HTMLElement).hidden = true;
    });
    setAddress("online", {});
  }

  /** @param {number} seconds */
  lost(seconds) {
    this.say(`The connection to the server is lost. It is tried again in ${seconds} ${
        seconds === 1 ? "second" : "seconds"}.`);
    this.again();
  }

  /** The connection is back. A battle that is shown waits until the server has sent it again. */
  back() {
    if (!this.shown || this.shown.isOver) this.say("");
  }

  /** @param {string} text about the connection */
  say(text) {
    find("online-lost", HTMLElement).textContent = text;
    this.table.say(text);
  }
}

extend((parts) => new Online(parts));
