// The connection to the server from which the page was loaded: JSON messages over a websocket, and tables. It comes back when it is lost.
import {keep, kept, Problem} from "./dom.js";

/**
 * @typedef {Record<string, any> & { type: string }} Message
 * @typedef {{ said: (message: Message) => void, lost: (seconds: number) => void, back: () => void }} Listener what a message calls, a lost connection with
 *   the seconds until it is tried again, and one that is back
 */

/** The seconds until a lost connection is tried again, at first and at most. */
const [FIRST, LONGEST] = [1, 20];

/** The connection. It is opened by the first request. */
export class Server {
  /** @param {Listener} listener */
  constructor(listener) {
    this.listener = listener;
    /** @type {WebSocket | null} */
    this.socket = null;
    this.wait = FIRST;
    this.timer = 0;
    /** Whether it is opened again when it is lost. */
    this.isWanted = false;
    /** The address of another process of the server, to which this one has led; empty for that of the page. */
    this.address = "";
    /** @type {Message[]} what is sent once the server has greeted, and accepted the token */
    this.waiting = [];
    this.isReady = false;
    window.addEventListener("online", () => this.isWanted && !this.socket && this.open());
  }

  /** The token of the account that the browser keeps; empty if there is none. */
  get token() {
    return kept("token") ?? "";
  }

  set token(value) {
    keep("token", value);
  }

  /** Opens the connection, unless it is open. */
  open() {
    window.clearTimeout(this.timer);
    this.isWanted = true;
    if (this.socket) return;
    const address = new URL(this.address || "socket", location.href.split("#")[0]);
    address.protocol = address.protocol.replace("http", "ws");
    // Where it is lost, the page begins where it is from.
    this.address = "";
    const socket = this.socket = new WebSocket(address);
    socket.onmessage = ({data}) => this.socket === socket && this.hear(JSON.parse(data));
    socket.onclose = () => this.socket === socket && this.lose();
  }

  /** @param {Message} message */
  hear(message) {
    if (message.type === "hello") {
      this.wait = FIRST;
      this.listener.back();
      if (this.token) this.put({type: "token", token: this.token});
      this.isReady = true;
      for (const it of this.waiting.splice(0)) this.put(it);
    }
    this.listener.said(message);
  }

  lose() {
    [this.socket, this.isReady, this.waiting] = [null, false, []];
    if (!this.isWanted) return;
    this.listener.lost(this.wait);
    this.timer = window.setTimeout(() => this.open(), 1000 * this.wait);
    this.wait = Math.min(2 * this.wait, LONGEST);
  }

  /**
   * Continues at another process.
   * @param {string} address
   */
  move(address) {
    this.close();
    this.address = address;
    this.open();
  }

  /** Closes it, and keeps it closed until the next request. */
  close() {
    window.clearTimeout(this.timer);
    const {socket} = this;
    [this.socket, this.isReady, this.isWanted, this.wait, this.waiting] = [null, false, false, FIRST, []];
    socket?.close();
  }

  /** @param {Message} message */
  put(message) {
    this.socket?.send(JSON.stringify(message));
  }

  /**
   * Sends a request. While the first connection is opened, it waits.
   * @param {string} type @param {Record<string, unknown>} [fields]
   */
  ask(type, fields = {}) {
    if (this.isWanted && !this.socket)
      throw new Problem("The connection to the server is lost. The page tries to connect again.");
    this.open();
    if (this.isReady)
      this.put({type, ...fields});
    else
      this.waiting.push({type, ...fields});
  }

  /**
   * A table of the server; null if it has none.
   * @param {string} path
   * @returns {Promise<any>}
   */
  async table(path) {
    try {
      const found = await fetch(new URL(path, location.href.split("#")[0]), {headers: {Accept: "application/json"}});
      return found.ok ? await found.json() : null;
    } catch {
      return null;
    }
  }
}
