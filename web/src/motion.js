// The events of an update, shown one after the other, with short sounds by Web Audio, which are off at first.

/** @typedef {import("./engine.js").GameEvent} GameEvent */

/** @type {Record<string, number>} milliseconds that events of a kind take */
const TIMES = {
  switch: 550,
  move: 480,
  damage: 700,
  heal: 600,
  faint: 700,
  turn: 150,
  status: 500,
  boost: 500,
  unboost: 500
};
const USUAL = 420;
/** @type {Record<string, number>} */
const SPEEDS = {
  slow: 1.7,
  normal: 1,
  fast: 0.45,
  off: 0
};
const REDUCED = window.matchMedia("(prefers-reduced-motion: reduce)");

/** @type {Record<string, [OscillatorType, number, number, number]>} a wave, its first and last frequency in Hz, and its seconds */
const SOUNDS = {
  switch: ["triangle", 330, 660, 0.18],
  move: ["square", 240, 180, 0.08],
  damage: ["sawtooth", 190, 60, 0.22],
  heal: ["sine", 440, 880, 0.3],
  crit: ["square", 880, 440, 0.15],
  "super effective": ["square", 520, 700, 0.16],
  miss: ["sine", 500, 350, 0.12],
  status: ["triangle", 300, 150, 0.25],
  boost: ["sine", 400, 700, 0.2],
  unboost: ["sine", 500, 250, 0.2],
  faint: ["triangle", 400, 50, 0.55],
  win: ["triangle", 523, 1046, 0.5],
};
const LOUD = 0.08;

/** @type {AudioContext | null} */
let audio = null;

/** @param {HTMLInputElement} setting */
function isHeard(setting) {
  return setting.checked && "AudioContext" in window;
}

/**
 * Plays the sound of a kind of event, if there is one.
 * @param {string} kind
 */
function sound(kind) {
  const found = SOUNDS[kind];
  if (!found) return;
  audio ??= new AudioContext();
  const [wave, first, last, seconds] = found;
  const [now, tone, gain] = [audio.currentTime, audio.createOscillator(), audio.createGain()];
  tone.type = wave;
  tone.frequency.setValueAtTime(first, now);
  tone.frequency.exponentialRampToValueAtTime(last, now + seconds);
  gain.gain.setValueAtTime(LOUD, now);
  gain.gain.exponentialRampToValueAtTime(0.0001, now + seconds);
  tone.connect(gain).connect(audio.destination);
  tone.start(now);
  tone.stop(now + seconds);
}

/** Shows events on a field and in a log. */
export class Motion {
  /** @param {import("./field.js").Field} field @param {HTMLSelectElement} speed one that is not in SPEEDS shows no motion @param {HTMLInputElement} sounds */
  constructor(field, speed, sounds) {
    this.field = field;
    this.speed = speed;
    this.sounds = sounds;
    this.isSkipped = false;
    this.isPlaying = false;
    this.count = 0;
    /** @type {() => void} */
    this.wake = () => {};
  }

  /** How much of the usual time events take; 0 shows them at once. */
  get share() {
    return REDUCED.matches || document.hidden ? 0 : SPEEDS[this.speed.value] ?? 0;
  }

  /** Shows the remaining events at once. */
  skip() {
    this.isSkipped = true;
    this.wake();
  }

  /** Stops showing events, and drops the remaining ones. */
  stop() {
    this.isPlaying = false;
    this.count++;
    this.wake();
  }

  /**
   * Shows events one after the other. Returns false if they were stopped.
   * @param {GameEvent[]} events
   * @param {(event: GameEvent) => void} tell
   */
  async play(events, tell) {
    const count = ++this.count;
    this.isSkipped = false;
    this.isPlaying = true;
    for (const event of events) {
      const time = this.isSkipped ? 0 : (TIMES[event.kind] ?? USUAL) * this.share;
      tell(event);
      this.field.apply(event, time);
      if (time && isHeard(this.sounds)) sound(event.kind);
      if (time) await this.wait(time);
      if (count !== this.count) return false;
    }
    this.isPlaying = false;
    return true;
  }

  /** @param {number} time */
  wait(time) {
    return new Promise((done) => {
      const timer = window.setTimeout(() => this.wake(), time);
      this.wake = () => {
        window.clearTimeout(timer);
        this.wake = () => {};
        done(undefined);
      };
    });
  }
}
