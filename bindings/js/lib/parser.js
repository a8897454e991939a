// Parsers.

import { OUT_OF_MEMORY, optionsAmong, rowCount, sizeInRange } from "./errors.js";
import { ROW_EVENTS, TEXT_EVENTS, TITLE_EVENTS, eventsIn, wantedBy } from "./events.js";
import { ROOM } from "./instance.js";
import { linesLength } from "./lines.js";
import { Screen } from "./screen.js";

/** The number of bytes that are parsed at once if each event stops: what is left of them is copied each time. */
const REPORTING_CHUNK = 2048;

/** The number of bytes that are parsed at once if only rows are reported, which limits what they take in the event log. */
const ROWS_CHUNK = 8192;

/** The limit of the event log if rows are reported. Parsing stops when it is half full, so a byte can fill the other half. */
const LOG_LIMIT = 2 ** 27;

/** The number of rows after which onScroll is invoked although `process` has not ended, which limits their memory. */
const MANY_ROWS = 10_000;

/** A screen with a parser that applies bytes to it. */
export class Parser extends Screen {
  #callbacks;
  #hasCallbacks;
  /** Whether rows are reported, and whether nothing else is. No callback then looks at the screen between two rows. */
  #reportsRows;
  #reportsOnlyRows;
  /** Whether other events than those for rows can occur in lines of text. */
  #mayStopInLines;
  /** The rows that are to be reported. */
  #rows = [];
  #isReporting = false;
  #titles = { title: "", iconName: "" };

  constructor(instance, rows = 24, cols = 80, options = {}) {
    const size = sizeInRange(rows, cols);
    const { scrollback = 0, callbacks = {} } = optionsAmong(["scrollback", "callbacks"], options);
    const capacity = rowCount("scrollback", scrollback);
    const wanted = wantedBy(callbacks);
    super(instance, (out) => instance.library.vt100_parser_new(...size, capacity, wanted | TITLE_EVENTS, out));
    this.#callbacks = callbacks;
    this.#hasCallbacks = wanted !== 0;
    this.#reportsRows = (wanted & ROW_EVENTS) !== 0;
    this.#reportsOnlyRows = wanted === ROW_EVENTS;
    this.#mayStopInLines = (wanted & TEXT_EVENTS) !== 0;
    if (this.#reportsRows) instance.check(instance.library.vt100_set_event_limit(this._at, BigInt(LOG_LIMIT)));
  }

  get screen() {
    return this;
  }

  get title() {
    return this.#readTitles().title;
  }

  get iconName() {
    return this.#readTitles().iconName;
  }

  process(data) {
    if (this.#isReporting) throw new Error("process was called by a callback of the same parser");
    const chunk = this.#reportsOnlyRows ? ROWS_CHUNK : REPORTING_CHUNK;
    try {
      this._instance.inChunks(data, (count) => this.#processChunk(count), this.#hasCallbacks ? chunk : ROOM);
    } finally {
      this.#reportRows();
    }
  }

  /** Parses the first bytes of the room, and reports their events. */
  #processChunk(count) {
    const instance = this._instance;
    for (let left = count; left > 0; ) {
      const [status, used] = this.#parse(left);
      left -= used;
      // Without callbacks, an event of the last byte can wait until the title is read, or the next event.
      if (this.#hasCallbacks || left > 0) this.#report(used, left);
      instance.check(status);
    }
  }

  /** Parses the first bytes of the room up to an event that must be reported before the next byte is parsed. Returns the
      status and the number of bytes. */
  #parse(left) {
    const instance = this._instance, { library, roomPointer, first } = instance, length = this.#gatheringLength(left);
    const status = length > 0
      ? library.vt100_process_until_full(this._at, roomPointer, BigInt(length), first)
      : library.vt100_process_until(this._at, roomPointer, BigInt(left), first);
    instance.renew();
    return [status, instance.word];
  }

  /** Returns how many of the first bytes of the room can log events for rows only, which may gather in the log. */
  #gatheringLength(left) {
    if (this.#reportsOnlyRows) return left;
    if (!this.#reportsRows || this.#mayStopInLines || !this.isGround) return 0;
    const { bytes, room } = this._instance;
    return linesLength(bytes.subarray(room, room + left));
  }

  get isGround() {
    const instance = this._instance;
    instance.check(instance.library.vt100_is_ground(this._at, instance.first));
    return instance.flag;
  }

  get scrollbackErasures() {
    const instance = this._instance;
    instance.check(instance.library.vt100_scrollback_erasures(this._at, instance.first));
    return instance.word;
  }

  get pendingLen() {
    const instance = this._instance;
    instance.check(instance.library.vt100_pending_len(this._at, instance.first));
    return instance.word;
  }

  setSize(rows, cols) {
    if (this.#isReporting) return super.setSize(rows, cols);
    const instance = this._instance;
    instance.check(instance.library.vt100_set_size(this._at, ...sizeInRange(rows, cols)));
    if (this.#hasCallbacks) this.#report(0, 0);
    this.#reportRows();
  }

  #readTitles() {
    if (!this.#hasCallbacks) this.#report(0, 0);
    return this.#titles;
  }

  /**
   * Clears the event log, and invokes the callbacks for the events that were in it. Then moves the `left` bytes of input
   * that follow `used` bytes to the start of the room, which callbacks may use.
   */
  #report(used, left) {
    const instance = this._instance;
    const { library, first, second, room } = instance;
    instance.check(library.vt100_events(this._at, first, second));
    const count = instance.word;
    const isWhole = instance.bytes[instance.results + 8] === 1;
    if (count === 0 && isWhole && left === 0) return;
    const rest = left > 0 ? instance.bytes.slice(room + used, room + used + left) : null;
    if (count > 0 || !isWhole) this.#invoke(this.#takeEvents(count), isWhole);
    if (rest !== null) instance.bytes.set(rest, room);
  }

  /** Clears the event log and returns the events that were in it, or null if there is no memory for them. */
  #takeEvents(count) {
    const instance = this._instance;
    try {
      return instance.withRoom(count, (at) => {
        instance.library.vt100_copy_events(this._at, BigInt(at), BigInt(count));
        return eventsIn(instance.copyOf(at, count), this, this.#titles);
      });
    } catch (error) {
      if (error.status !== OUT_OF_MEMORY) throw error;
      return null;
    } finally {
      instance.check(instance.library.vt100_clear_events(this._at));
    }
  }

  /** Invokes the callbacks for events. Those that were not read are lost. */
  #invoke(events, isWhole) {
    for (const [name, values] of events ?? []) {
      if (name === "onScroll") this.#addRows(values);
      else this.#call(name, values);
    }
    if (events === null || !isWhole) this.#call("eventsLost", [this]);
  }

  /** Invokes a callback if there is one, after the one for the rows that scrolled off before its event. */
  #call(name, values) {
    this.#reportRows();
    this.#isReporting = true;
    try {
      this.#callbacks[name]?.(...values);
    } finally {
      this.#isReporting = false;
    }
  }

  #addRows([rows]) {
    this.#rows = this.#rows.length === 0 ? rows : this.#rows.concat(rows);
    if (this.#rows.length >= MANY_ROWS) this.#reportRows();
  }

  /** Invokes the callback for the rows that were not reported yet. */
  #reportRows() {
    const rows = this.#rows;
    if (rows.length === 0) return;
    this.#rows = [];
    this.#call("onScroll", [rows]);
  }
}
