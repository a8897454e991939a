const IS_COMMENT = /^\s*(#|$)/;

/** The largest terminal of a recording: a larger one takes more memory and time than a page has. */
const MAX_LENGTH = 2000, MAX_CELLS = 250_000;

/** Returns the value of a line of a recording. */
function valueOf(line, number) {
  try {
    return JSON.parse(line);
  } catch (cause) {
    throw new SyntaxError(`line ${number}: not JSON`, { cause });
  }
}

/** Returns a size, whose numbers must be within the limits. */
function sizeOf(rows, cols, number) {
  for (const length of [rows, cols]) {
    if (!Number.isInteger(length) || length < 1) throw new SyntaxError(`line ${number}: no such size`);
  }
  if (Math.max(rows, cols) > MAX_LENGTH || rows * cols > MAX_CELLS) {
    throw new SyntaxError(`line ${number}: a terminal of ${cols} columns and ${rows} rows is too large: at most`
      + ` ${MAX_LENGTH} of each and ${MAX_CELLS} cells can be played`);
  }
  return { rows, cols };
}

/** Returns the size and the theme in a header. */
function terminalOf(header) {
  if (header?.version === 1 || header?.version === 2) {
    return { rows: header.height, cols: header.width, theme: header.theme };
  }
  if (header?.version === 3) return { rows: header.term?.rows, cols: header.term?.cols, theme: header.term?.theme };
  throw new SyntaxError("line 1: not the header of an asciinema recording of version 1, 2 or 3");
}

/** Returns the longest pause, as a header has it. What is no time is no limit. */
function limitOf(seconds) {
  return typeof seconds === "number" && seconds >= 0 ? seconds : Infinity;
}

/** Returns the event of a line, `[time, kind, data]`. */
function eventOf(value, number) {
  if (!Array.isArray(value) || value.length < 3) throw new SyntaxError(`line ${number}: an event has three parts`);
  const [time, kind, data] = value;
  if (!(Number.isFinite(time) && time >= 0)) throw new SyntaxError(`line ${number}: the time is not a number`);
  if (typeof kind !== "string" || typeof data !== "string") throw new SyntaxError(`line ${number}: not a string`);
  if (kind !== "r") return { time, kind, data };
  const [, cols, rows] = data.match(/^(\d+)x(\d+)$/) ?? [];
  return { time, kind, data, ...sizeOf(Number(rows), Number(cols), number) };
}

/** Returns the lines of a recording that are not comments, with their numbers. */
function linesOf(text) {
  return text.split("\n").map((line, index) => ({ line, number: index + 1 })).filter(({ line }) => !IS_COMMENT.test(line));
}

/** Returns the single value of a recording of version 1, or null if the text is not one. */
function versionOne(text) {
  try {
    const value = JSON.parse(text);
    return value?.version === 1 ? value : null;
  } catch {
    return null;
  }
}

/** Returns whether a line is not JSON. */
function isDamaged(line) {
  try {
    JSON.parse(line);
    return false;
  } catch {
    return true;
  }
}

/** A recording of a terminal: the size, and the events with their times in seconds from the beginning. */
export class Cast {
  /** Whether the last line was cut off, as that of a recorder that was killed. The line is then ignored. */
  isCutOff = false;

  /** Parses a recording. Throws a SyntaxError with the number of the line if it is damaged. */
  constructor(text) {
    if (typeof text !== "string") throw new TypeError(`a recording is a string, not ${typeof text}`);
    const content = text.replace(/^\ufeff/, ""), whole = versionOne(content), lines = linesOf(content);
    if (lines.length === 0) throw new SyntaxError("line 1: no header");
    const { line, number } = lines[0], header = whole ?? valueOf(line, number), { rows, cols, theme } = terminalOf(header);
    this.version = header.version;
    const size = sizeOf(rows, cols, number);
    this.rows = size.rows;
    this.cols = size.cols;
    this.theme = theme ?? null;
    this.title = header.title ?? "";
    this.idleTimeLimit = limitOf(header.idle_time_limit);
    this.events = this.#timed(whole === null ? this.#eventsOf(lines.slice(1), content.endsWith("\n")) : outputOf(whole));
  }

  #eventsOf(lines, isWhole) {
    this.isCutOff = !isWhole && lines.length > 0 && isDamaged(lines.at(-1).line);
    const kept = this.isCutOff ? lines.slice(0, -1) : lines;
    return kept.map(({ line, number }) => eventOf(valueOf(line, number), number));
  }

  /** Replaces the times of events by those from the beginning. Those of version 2 may be out of order. */
  #timed(events) {
    let now = 0;
    for (const event of events) {
      now = this.version === 2 ? Math.max(now, event.time) : now + event.time;
      event.time = now;
    }
    return events;
  }

  /** Returns the events, with pauses between two of them shortened to `limit` seconds. */
  withIdleTimeLimit(limit) {
    let now = 0, before = 0;
    return this.events.map((event) => {
      now += Math.min(event.time - before, limit);
      before = event.time;
      return { ...event, time: now };
    });
  }
}

/** Returns the events of a recording of version 1, `[delay, text]`. */
function outputOf({ stdout }) {
  if (!Array.isArray(stdout)) throw new SyntaxError("line 1: a recording of version 1 has a list of its output");
  return stdout.map((value, k) => {
    if (!Array.isArray(value)) throw new SyntaxError(`line 1: output ${k + 1} is not a list`);
    return eventOf([value[0], "o", value[1]], 1);
  });
}
