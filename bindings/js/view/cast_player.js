import { notNegative, optionsAmong, positive } from "../lib/errors.js";
import { Cast } from "./cast.js";
import { Keyframes } from "./keyframes.js";

const OPTIONS = ["scrollback", "idleTimeLimit", "playbackRate", "keyframes", "clock"];

const DEFAULT_CLOCK = {
  now: () => performance.now() / 1000,
  request: (callback) => (globalThis.requestAnimationFrame ?? ((run) => setTimeout(run, 16)))(callback),
  cancel: (number) => (globalThis.cancelAnimationFrame ?? clearTimeout)(number),
};

/** Returns events with the line drawing in their output translated to Unicode, which parsers do not do. */
function translated(events, { Charsets }) {
  const charsets = new Charsets(), decoder = new TextDecoder("utf-8", { ignoreBOM: true });
  try {
    return events.map((event) => {
      return event.kind === "o" ? { ...event, data: decoder.decode(charsets.translate(event.data)) } : event;
    });
  } finally {
    charsets.free();
  }
}

/**
 * Plays a recording on a parser, in the manner of an HTMLMediaElement. Saved screens make seeking fast. view.d.ts
 * describes the interface.
 */
export class CastPlayer extends EventTarget {
  #events;
  #clock;
  #parser;
  #keyframes;
  /** The index of the next event, and the number of characters before it. */
  #index = 0;
  #position = 0;
  #time = 0;
  /** When playing began at #time, or null while paused. */
  #startedAt = null;
  #rate = 1;
  #request = null;

  constructor(vt100, cast, options = {}) {
    super();
    const { scrollback = 500, idleTimeLimit = cast.idleTimeLimit, playbackRate = 1, keyframes, clock = DEFAULT_CLOCK } =
      optionsAmong(OPTIONS, options);
    if (!(cast instanceof Cast)) throw new TypeError("a Cast is required");
    notNegative("idleTimeLimit", idleTimeLimit);
    this.cast = cast;
    this.#events = translated(cast.withIdleTimeLimit(idleTimeLimit), vt100);
    this.#clock = clock;
    this.#parser = new vt100.Parser(cast.rows, cast.cols, { scrollback });
    this.#keyframes = new Keyframes(keyframes);
    this.#keyframes.offer(this.#parser, 0, 0);
    this.playbackRate = playbackRate;
  }

  get parser() {
    return this.#parser;
  }

  get duration() {
    return this.#events.at(-1)?.time ?? 0;
  }

  get markers() {
    return this.#events.filter(({ kind }) => kind === "m").map(({ time, data }) => ({ time, label: data }));
  }

  get paused() {
    return this.#startedAt === null;
  }

  get ended() {
    return this.#index === this.#events.length && this.currentTime >= this.duration;
  }

  get currentTime() {
    if (this.#startedAt === null) return this.#time;
    return Math.min(this.#time + (this.#clock.now() - this.#startedAt) * this.#rate, this.duration);
  }

  set currentTime(seconds) {
    this.seek(seconds);
  }

  get playbackRate() {
    return this.#rate;
  }

  set playbackRate(rate) {
    positive("playbackRate", rate);
    this.#restartClock(this.currentTime);
    this.#rate = rate;
    this.#emit("ratechange");
  }

  play() {
    if (!this.paused) return;
    if (this.ended) this.#moveTo(0);
    this.#startedAt = this.#clock.now();
    this.#emit("play");
    this.#tick();
  }

  pause() {
    if (this.paused) return;
    this.#time = this.currentTime;
    this.#startedAt = null;
    this.#clock.cancel(this.#request);
    this.#emit("pause");
  }

  seek(seconds) {
    if (Number.isNaN(Number(seconds))) throw new TypeError("the time must be a number");
    this.#moveTo(Math.min(Math.max(Number(seconds), 0), this.duration));
    this.#emit("seeked");
    this.#emit("timeupdate");
  }

  /** Pauses, and goes to the next time at which the screen changes, or to the last one before if `count` is negative. */
  step(count) {
    if (typeof count !== "number") throw new TypeError(`count must be a number, not ${typeof count}`);
    if (!(count > 0 || count < 0)) throw new RangeError(`count must be positive or negative, not ${count}`);
    this.pause();
    const times = this.#events.filter(({ kind }) => kind === "o" || kind === "r").map(({ time }) => time), now = this.#time;
    if (count > 0) this.seek(times.find((time) => time > now) ?? this.duration);
    else this.seek(times.findLast((time) => time < now) ?? 0);
  }

  free() {
    this.pause();
    this.#keyframes.free();
    this.#parser.free();
  }

  #emit(type) {
    this.dispatchEvent(new Event(type));
  }

  #restartClock(time) {
    this.#time = time;
    if (this.#startedAt !== null) this.#startedAt = this.#clock.now();
  }

  /** Applies the events that are due, and requests the next call. */
  #tick() {
    if (this.paused) return;
    const before = this.#index;
    this.#applyUntil(this.currentTime);
    if (this.#index !== before) this.#emit("screenchange");
    this.#emit("timeupdate");
    if (this.ended) {
      this.pause();
      this.#emit("ended");
    } else if (!this.paused) {
      this.#request = this.#clock.request(() => this.#tick());
    }
  }

  #moveTo(time) {
    const target = this.#indexAfter(time), frame = this.#keyframes.before(target);
    if (target < this.#index || frame.index > this.#index) this.#restore(frame);
    this.#parser.setScrollback(0);
    this.#applyUntil(time);
    this.#restartClock(time);
    this.#emit("screenchange");
  }

  /** Returns the number of events up to a time. */
  #indexAfter(time) {
    let low = 0, high = this.#events.length;
    while (low < high) {
      const middle = (low + high) >> 1;
      if (this.#events[middle].time <= time) low = middle + 1;
      else high = middle;
    }
    return low;
  }

  #restore({ screen, index, position }) {
    this.#parser.process("\x18"); // ends an unfinished sequence, which the parser would keep
    const copy = screen.save();
    this.#parser.swap(copy);
    copy.free();
    this.#index = index;
    this.#position = position;
  }

  #applyUntil(time) {
    for (; this.#index < this.#events.length && this.#events[this.#index].time <= time; this.#index++) {
      // A saved screen has no unfinished sequence, so it must be saved where there is none.
      if (this.#parser.isGround) this.#keyframes.offer(this.#parser, this.#index, this.#position);
      this.#apply(this.#events[this.#index]);
    }
  }

  #apply({ kind, data, rows, cols }) {
    if (kind === "r") this.#parser.setSize(rows, cols);
    if (kind !== "o") return;
    this.#parser.process(data);
    this.#position += data.length;
  }
}
