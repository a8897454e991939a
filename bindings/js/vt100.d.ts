/// <reference lib="es2020" />

/**
 * A terminal screen in memory, compiled to WebAssembly.
 *
 * Rows and columns are 0-based. A terminal is *plain* if its scroll region is the whole page, origin mode is off, no
 * scrollback is displayed and no sequence is unfinished; every new terminal is plain. A screen is *steady* if every
 * visible glyph reproduces itself when it is printed again; only glyphs with U+FE0F may fail to do so.
 *
 * Methods throw a RangeError for an invalid size, row, column, range or viewer, a TypeError for an argument of the
 * wrong type, and a Vt100Error otherwise. A method that throws has changed nothing, except for process.
 */

declare global {
  // For compilers and engines without explicit resource management.
  interface SymbolConstructor {
    readonly dispose: unique symbol;
  }
  interface Disposable {
    [Symbol.dispose](): void;
  }
}

/** null for the default color, the index of a palette color, or [red, green, blue]. */
export type Color = null | number | readonly [red: number, green: number, blue: number];

/** What a terminal reads: bytes, or a string, which is encoded as UTF-8. */
export type Data = string | ArrayBuffer | ArrayBufferView;

/** A cell of a screen. */
export declare class Cell {
  /** Reads a record of rowBytes or dirty, which begins at the byte `at`. */
  constructor(records: Uint8Array, at: number);
  /** A character followed by its combining characters; empty if nothing was written to the cell, and in the
      continuation cell of a wide character. */
  readonly text: string;
  readonly fgcolor: Color;
  readonly bgcolor: Color;
  readonly bold: boolean;
  readonly dim: boolean;
  readonly italic: boolean;
  readonly underline: boolean;
  readonly inverse: boolean;
  readonly wide: boolean;
  readonly wideContinuation: boolean;
}

/** A row that a screen keeps. */
export interface KeptRow {
  readonly cells: Cell[];
  /** Whether the text of the row continues on the next row. */
  readonly wrapped: boolean;
}

/**
 * The scrollback of a screen: its rows from the oldest to the latest one. Reading it changes nothing, not even what is
 * displayed. A row has a length of its own, as described at keptRow, also if it is wider than the screen after a resize.
 * The alternate screen has no history.
 *
 * Negative indices count from the end: `history.at(-1)` is the row above the page. As in arrays, ranges may reach beyond
 * the ends. An index that is no integer (or, in a range, infinite) is a RangeError.
 */
export interface History extends Iterable<KeptRow> {
  readonly length: number;
  /** Returns a row, or undefined if there is none at this index. */
  at(index: number): KeptRow | undefined;
  /** Returns the rows from `start` (default: the first) up to but excluding `end` (default: after the last). */
  slice(start?: number, end?: number): KeptRow[];
  /** Returns the plain text of the rows in a range, which is given as for slice. */
  rows(start?: number, end?: number): string[];
}

export interface Size {
  readonly rows: number;
  readonly cols: number;
}

export interface Position {
  readonly row: number;
  readonly col: number;
}

/** The mouse events that a program has requested. */
export declare const MouseProtocolMode: {
  readonly NONE: 0;
  readonly PRESS: 1;
  readonly PRESS_RELEASE: 2;
  readonly BUTTON_MOTION: 3;
  readonly ANY_MOTION: 4;
};
export type MouseProtocolMode = (typeof MouseProtocolMode)[keyof typeof MouseProtocolMode];

/** The encoding of mouse events that are sent to a program. */
export declare const MouseProtocolEncoding: { readonly DEFAULT: 0; readonly UTF8: 1; readonly SGR: 2 };
export type MouseProtocolEncoding = (typeof MouseProtocolEncoding)[keyof typeof MouseProtocolEncoding];

/** The shape of the cursor, and whether it blinks (DECSCUSR). */
export declare const CursorStyle: {
  readonly DEFAULT: 0;
  readonly BLINK_BLOCK: 1;
  readonly STEADY_BLOCK: 2;
  readonly BLINK_UNDERLINE: 3;
  readonly STEADY_UNDERLINE: 4;
  readonly BLINK_VERTICAL_BAR: 5;
  readonly STEADY_VERTICAL_BAR: 6;
};
export type CursorStyle = (typeof CursorStyle)[keyof typeof CursorStyle];

/** The modes of a screen, the attributes of the next character, and the numbers about scrollback. */
export interface Properties {
  readonly alternateScreen: boolean;
  /** Whether the keypad is in application mode (DECKPAM). */
  readonly applicationKeypad: boolean;
  /** Whether the cursor keys are in application mode (DECCKM). */
  readonly applicationCursor: boolean;
  /** Whether the cursor is hidden (DECTCEM reset). */
  readonly hideCursor: boolean;
  /** Bracketed paste mode (DEC private mode 2004). */
  readonly bracketedPaste: boolean;
  readonly mouseProtocolMode: MouseProtocolMode;
  readonly mouseProtocolEncoding: MouseProtocolEncoding;
  readonly cursorStyle: CursorStyle;
  readonly bold: boolean;
  readonly dim: boolean;
  readonly italic: boolean;
  readonly underline: boolean;
  readonly inverse: boolean;
  readonly fgcolor: Color;
  readonly bgcolor: Color;
  /** The number of rows by which the display is scrolled back. */
  readonly scrollback: number;
  /** The number of scrollback rows; 0 on the alternate screen. */
  readonly scrollbackLen: number;
  /** The maximum number of scrollback rows; 0 on the alternate screen. */
  readonly scrollbackCapacity: number;
}

/** The properties of a screen other than its cells. */
export interface State extends Properties {
  readonly rows: number;
  readonly cols: number;
  readonly cursorRow: number;
  /** Equals `cols` if a wrap is pending, after a character was printed in the last column. */
  readonly cursorCol: number;
}

/**
 * Callbacks for what a program asks of its terminal besides drawing, for unsupported sequences, and for rows that
 * scroll off and are not kept. Which callbacks there are is decided when the parser is made; other events are not even
 * recorded, except for titles. A callback that is no function, and an own function of any other name, is a TypeError.
 *
 * Callbacks are invoked during process, in order. All but onScroll are invoked after the byte that completes the sequence
 * and before the next byte is parsed; onScroll is invoked with all rows that have scrolled off before the next event, or
 * before process ends. `screen` is the parser. A callback may read and change it, but must not call process. An exception
 * that a callback throws leaves process; the remaining bytes are not parsed, and no further callbacks are invoked.
 *
 * What a program sends is passed as bytes, because it need not be UTF-8.
 */
export interface Callbacks {
  /** BEL. */
  audibleBell?(screen: Parser): void;
  /** ESC g. */
  visualBell?(screen: Parser): void;
  /** A request to resize the terminal (CSI 8 ; ROWS ; COLS t). Either number may be 0. */
  resize?(screen: Parser, rows: number, cols: number): void;
  /** OSC 0 and 1. */
  setWindowIconName?(screen: Parser, iconName: Uint8Array): void;
  /** OSC 0 and 2. */
  setWindowTitle?(screen: Parser, title: Uint8Array): void;
  /** Base64 data for the clipboards that `kind` names (OSC 52). */
  copyToClipboard?(screen: Parser, kind: Uint8Array, data: Uint8Array): void;
  /** A request for the contents of the clipboards that `kind` names (OSC 52 with ?). */
  pasteFromClipboard?(screen: Parser, kind: Uint8Array): void;
  /** A character that is not drawn: U+FFFD, which stands for malformed UTF-8, or a C1 control character. */
  unhandledChar?(screen: Parser, char: string): void;
  unhandledControl?(screen: Parser, control: number): void;
  /** An escape sequence: its intermediate bytes and its final byte. */
  unhandledEscape?(screen: Parser, first: number | null, second: number | null, final: number): void;
  /** A control sequence: its private marker and intermediate bytes, its parameters with their subparameters, and its
      final character. */
  unhandledCsi?(screen: Parser, first: number | null, second: number | null, params: number[][], final: string): void;
  /** An operating system command, split at its semicolons. */
  unhandledOsc?(screen: Parser, params: Uint8Array[]): void;
  /**
   * Rows that scrolled off the top of the screen, or out of scrollback, and are not kept, or rows of scrollback that ED 3
   * (CSI 3 J) erased. setSize may also invoke this.
   *
   * It is invoked once for all rows that scroll off before the next event for another callback, or before process ends,
   * and also each time that 10,000 rows have scrolled off. Since this callback does not get the screen, the parser need not
   * stop at each row. If it throws, some of the bytes that remain are parsed.
   */
  onScroll?(rows: ScrolledRow[]): void;
  /** Invoked instead of the callbacks of the remaining events of a byte if an allocation fails, or if the events of
      this byte take more than about 1 MiB, or 64 MiB if there is an onScroll. */
  eventsLost?(screen: Parser): void;
}

/** A row that scrolled off. */
export interface ScrolledRow {
  /** The plain text, which is decoded when it is read. */
  readonly text: string;
  /** Whether the text continues on the next row. */
  readonly wrapped: boolean;
  readonly alternateScreen: boolean;
}

/** An error that is not an invalid argument. */
export declare class Vt100Error extends Error {
  private constructor(status: number);
  /**
   * 1: out of memory; 2: the parser or mirror ran out of memory in an earlier call and processes no more bytes; 5: the
   * screens have different sizes; 6: the object is freed; 8: the mirror has no viewer number left.
   */
  readonly status: number;
}

/**
 * The one-column characters that a diff may repeat with REP (ECMA-48, 8.3.103): none; printable ASCII characters, the
 * only ones that tmux 3.3a repeats; or all.
 */
export declare const Repeat: { readonly NEVER: 0; readonly ASCII: 4; readonly ANY: 2 };
export type Repeat = (typeof Repeat)[keyof typeof Repeat];

/**
 * Sequences to write once to a real terminal before its first redraw, and again when its width has changed: a redraw takes
 * it for granted that a terminal is as after a reset. They end an unfinished string and a synchronized update, and select
 * UTF-8, ASCII in G0 to G3 instead of national characters, the full scroll region, replace mode, automatic wrap, a normal
 * screen, bidirectional text that the terminal orders, from left to right, and tab stops at every eighth column of the
 * first 320. They move the cursor, and draw nothing. They are no redraw, and nothing is proved about them.
 */
export declare const TERMINAL_SETUP: string;

/**
 * Sequences to write to a real terminal when no more output follows. They undo what redraws and inputModeFormatted can
 * leave set: they select default attributes, show the cursor, and reset the input modes and the cursor style.
 */
export declare const TERMINAL_RESTORE: string;

export interface RedrawOptions {
  /** Whether the output avoids sequences on whose effects real terminals disagree: it changes between bold and dim only
      after a reset, moves the cursor from the last column only to an absolute position, and erases a wide glyph only as
      a whole. */
  portable?: boolean;
}

/** A portable diff moves no columns; with `scroll`, it may move rows. */
export interface DiffOptions extends RedrawOptions {
  /** Whether a diff may begin by moving rows or columns. */
  scroll?: boolean;
  /** Which runs within a row may be written with REP. Some terminals ignore REP. */
  repeat?: Repeat;
}

/** Colors are written as in CSS. */
export interface Colors {
  readonly foreground?: string;
  readonly background?: string;
  /** The opacity of dim text, from 0 to 1. */
  readonly dimOpacity?: number;
  /** The colors of the palette, from index 0 on. Missing ones are the default ones: xterm's from index 16 on. */
  readonly palette?: readonly string[];
}

export interface PictureOptions {
  /** The colors, which may be a Theme of vt100/view.js. By default, text is light on a dark background. */
  theme?: Colors;
}

/** An object in the module's memory. Every method but free throws a Vt100Error with status 6 once it is freed. */
export interface Handle extends Disposable {
  /** Frees the object at once. Otherwise it is freed some time after the garbage collector has found it, which is only
      between tasks: a long loop without await should free its objects. */
  free(): void;
  readonly isFreed: boolean;
}

/** A screen, which belongs to a parser or is a copy made by save or shownCopy. */
export declare abstract class Screen {
  /** Screens are made by a Parser, save or shownCopy. */
  private constructor();
}
export interface Screen extends Handle, Properties {
  /** Returns a copy of the screen, which later input does not change. */
  save(): Screen;
  /** Returns a screen that displays the same content, without scrollback or the inactive page. It can be the `prev` of
      a later diff and takes less memory than a copy made by save. While scrollback is displayed, the copy is
      complete. */
  shownCopy(): Screen;
  /** Swaps two screens. A parser keeps its callbacks and its unfinished sequence. */
  swap(other: Screen): void;
  /** Resizes the screen. On a parser, callbacks may be invoked. */
  setSize(rows: number, cols: number): void;
  /** Scrolls the display back by `rows` rows, or by all scrollback rows if there are fewer (Infinity: all); 0 displays
      the page itself. Does nothing on the alternate screen. */
  setScrollback(rows: number): void;
  /** Discards the scrollback without invoking callbacks. Does nothing on the alternate screen. */
  clearScrollback(): void;

  /** All properties at once, which is faster than reading each. */
  readonly state: State;
  readonly size: Size;
  /** The position of the cursor. Its column equals the number of columns if a wrap is pending. */
  readonly cursor: Position;
  /** Returns the displayed cell at a row and column, or undefined if there is none. */
  cell(row: number, col: number): Cell | undefined;
  /** Returns the cells of a displayed row, one for each column, which is faster than calling cell for each. */
  cells(row: number): Cell[];
  /** Returns the records of a row's cells, 40 bytes each (vt100_cell in vt100.h), in `out` or a new array. */
  rowBytes(row: number, out?: Uint8Array): Uint8Array;
  /** Returns the cells of all displayed rows: `allCells()[row][col]` is a cell. */
  allCells(): Cell[][];
  /** Returns the records of the cells of all displayed rows, one row after the other, 40 bytes each, in `out` or a new
      array. */
  allBytes(out?: Uint8Array): Uint8Array;
  /** Returns the cells of a row that the screen keeps, whether it is displayed or not, and whether it is wrapped, or
      undefined if there is no such row. Rows are counted from 0: first come the `scrollbackLen` rows of scrollback, oldest
      first, and then those of the page. A scrollback row has a length of its own, without blank cells at its end, unless
      it was displayed. The display does not change. */
  keptRow(row: number): KeptRow | undefined;
  /** The scrollback, whose rows can be read without displaying them. */
  readonly history: History;
  /** Returns the displayed rows whose cells have changed since the last call, each with the records of its cells. The
      first call, and the first one after a resize, returns all rows. The records are valid until the next call. */
  dirty(): Map<number, Uint8Array>;
  /** Returns whether a displayed row is wrapped (its text continues on the next row). */
  rowWrapped(row: number): boolean;
  /** Returns whether a terminal that reads a redraw of the screen, or a diff to it, displays exactly this screen. */
  isSteady(): boolean;

  /** Returns the plain text of the displayed rows. Each row is followed by a newline, unless it is wrapped and the next
      row has text. Newlines at the end are omitted. */
  contents(): string;
  /** Returns the plain text from one position up to but excluding another. */
  contentsBetween(startRow: number, startCol: number, endRow: number, endCol: number): string;
  /** Returns the plain text of a row that the screen keeps, up to its last character, or undefined if there is no such
      row. Rows are counted as by keptRow. */
  keptText(row: number): string | undefined;
  /** Returns the plain text of each displayed row in `width` columns from column `start` on. */
  rows(start?: number, width?: number): string[];
  /** Returns the positions in `contents` at which a string, or a match of a regular expression, begins. Matches do not
      overlap. Text that continues from a wrapped row onto the next row is found, too. */
  find(text: string | RegExp): Position[];

  /** Returns an element of HTML, `<pre>` with inline styles, that shows the displayed rows in a monospaced font. */
  toHtml(options?: PictureOptions): string;
  /** Returns a picture of the displayed rows in SVG. The viewer's monospaced font draws the text. */
  toSvg(options?: PictureOptions): string;

  /** Returns a redraw: the escape sequences that make any plain terminal of this size display this screen. */
  contentsFormatted(): string;
  /** Returns the redraw of contentsFormatted, or its portable form. */
  contentsFormattedWith(options?: RedrawOptions): string;
  /** Returns a redraw for terminals of this size that may have any scroll region and origin mode. */
  contentsFormattedReset(): string;
  /** Returns the text of the displayed rows with SGR sequences for colors and attributes, and no other sequences. */
  contentsFormattedBasic(): string;
  /** Returns a redraw followed by the sequences that set the input modes. */
  stateFormatted(): string;
  /** Returns contentsFormattedWith followed by inputModeFormatted. */
  stateFormattedWith(options?: RedrawOptions): string;
  /** Returns the part of a redraw that moves the cursor and shows or hides it. */
  cursorStateFormatted(): string;
  /** Returns the part of a redraw that sets the attributes of the next character. */
  attributesFormatted(): string;
  /** Returns the sequences that set the input modes: keypad, cursor keys, bracketed paste, mouse and cursor style. The
      terminal must have the default mouse mode, mouse encoding and cursor style. */
  inputModeFormatted(): string;
  /** Returns the output that draws each row, in `width` columns from column `start` on, on a blank row of a plain
      terminal whose cursor is in column `start` of that row and whose attributes are the default ones. */
  rowsFormatted(start?: number, width?: number): string[];

  /** Returns a diff: the escape sequences that turn the display of `prev` on a plain terminal into the display of this
      screen. Throws a Vt100Error with status 5 if the sizes differ. */
  contentsDiff(prev: Screen): string;
  /** Returns a diff that may begin by moving rows or columns, and is never longer than that of contentsDiff, or than
      the redraw. The tty must not translate output, and the tab stops must be at every eighth column. */
  contentsDiffScrolling(prev: Screen): string;
  /** Returns a diff with options, which is never longer than that of contentsDiff or, if it is portable, than its
      portable form. */
  contentsDiffWith(prev: Screen, options?: DiffOptions): string;
  /** Returns contentsDiff followed by inputModeDiff. */
  stateDiff(prev: Screen): string;
  /** Returns contentsDiffWith followed by inputModeDiff. */
  stateDiffWith(prev: Screen, options?: DiffOptions): string;
  /** Returns the sequences that turn the input modes of `prev` into those of this screen. Their sizes may differ. */
  inputModeDiff(prev: Screen): string;
  /** Returns the output that turns each row of `prev` into the corresponding row of this screen. */
  rowsDiff(prev: Screen, start?: number, width?: number): string[];
}

/** A screen with a parser that applies bytes to it. */
export interface Parser extends Screen {
  /** The parser itself. save returns a copy. */
  readonly screen: Screen;
  /** The title of the window (OSC 0 and 2). Bytes that are not UTF-8 are replaced by U+FFFD. A title is lost
      if the event is (see eventsLost). */
  readonly title: string;
  /** The icon name of the window (OSC 0 and 1), in the same form as `title`. */
  readonly iconName: string;
  /**
   * Parses data and applies it to the screen, invoking callbacks as sequences complete. Bytes may be split anywhere: an
   * incomplete character or sequence continues with the next call. A string must not be split between the two halves of
   * a surrogate pair, each of which would become U+FFFD.
   *
   * Throws a Vt100Error with status 1 if an allocation fails: everything before that step has taken effect, and later
   * calls throw one with status 2.
   */
  process(data: Data): void;
  /** Whether the parser is in ground state: no escape sequence, control string or character is half read. */
  readonly isGround: boolean;
  /** How often the input has asked to erase scrollback: the number of RIS (ESC c) and ED 3 (CSI 3 J or CSI ? 3 J)
      sequences that were processed, even if there was nothing to erase. If the number has changed, copies of scrollback
      rows that were made before are outdated. */
  readonly scrollbackErasures: number;
  /** The number of bytes kept for an unfinished operating system command, which only memory limits. process("\x18")
      ends such a command. */
  readonly pendingLen: number;
}

/** What a viewer's terminal must read next. `size` is the size to which the terminal must be resized first, or null. */
export interface Update {
  readonly text: string;
  readonly size: Size | null;
}

/**
 * A terminal that remembers, for each of its viewers, the screen of the last update.
 *
 * A viewer is a plain terminal that reads all its updates in order, and thus displays the mirror's screen as it was at
 * the last update. A viewer's first update, and its first update after a resize, redraws the screen; every other update
 * is a diff from the screen of the previous update.
 */
export interface Mirror extends Handle {
  /** Parses data as the process of a Parser does. */
  process(data: Data): void;
  /** Whether the mirror is in ground state: no escape sequence, control string or character is half read. */
  readonly isGround: boolean;
  setSize(rows: number, cols: number): void;
  /** Adds a viewer and returns its number, which is never reused. */
  join(): bigint;
  leave(viewer: bigint): void;
  update(viewer: bigint): Update;
  /** Returns an update whose diff may begin by moving rows or columns, and is never longer than that of update. If the
      screen of the viewer's last update was not steady, the update is a redraw, which corrects the viewer's display. */
  updateScrolling(viewer: bigint): Update;
  /** Returns an update with options, which may change from update to update. With `portable`, a redraw is portable, too.
      With `scroll`, the update may be a redraw, as with updateScrolling. */
  updateWith(viewer: bigint, options?: DiffOptions): Update;
  /** Returns whether the viewer has had an update since the last call to process and the last resize. */
  isCurrent(viewer: bigint): boolean;
}

/**
 * A translator that replaces what a program prints in DEC Special Graphics, the character set for line drawing, by
 * Unicode characters in UTF-8.
 *
 * A Parser has no character sets, so boxes that are drawn with them appear as letters such as "lqqqk". A translator reads
 * the output of a program before the parser does. It follows the designations of G0 to G3, SO, SI, the single and locking
 * shifts, DECSC and DECRC, the modes 47, 1047, 1048 and 1049, DECSTR and RIS. All other sets are read as ASCII, and all
 * other bytes stay as they are, including the designations.
 */
export interface Charsets extends Handle {
  /**
   * Returns the translation of data, at most three times as long as its UTF-8. Input may be split anywhere; no byte is
   * held back. Throws a Vt100Error with status 1 if an allocation fails; part of the data may have been read then.
   */
  translate(data: Data): Uint8Array;
}

export interface ParserOptions {
  /** The maximum number of scrollback rows (default: 0). */
  scrollback?: number;
  callbacks?: Callbacks;
}

export interface MirrorOptions {
  /** The maximum number of scrollback rows (default: 0). */
  scrollback?: number;
}

/** The classes of one instance of the module. Objects of two instances cannot be combined. */
export interface Vt100 {
  readonly Parser: new (rows?: number, cols?: number, options?: ParserOptions) => Parser;
  readonly Mirror: new (rows?: number, cols?: number, options?: MirrorOptions) => Mirror;
  readonly Charsets: new () => Charsets;
  readonly Screen: typeof Screen;
  readonly Cell: typeof Cell;
  readonly Repeat: typeof Repeat;
  readonly MouseProtocolMode: typeof MouseProtocolMode;
  readonly MouseProtocolEncoding: typeof MouseProtocolEncoding;
  readonly CursorStyle: typeof CursorStyle;
  readonly Vt100Error: typeof Vt100Error;
  /** The version of the interface of the library, such as "1.3". */
  readonly version: string;
  /** The memory of the instance, a WebAssembly.Memory, which only grows. */
  readonly memory: { readonly buffer: ArrayBuffer };
}

/**
 * A compiled module (WebAssembly.Module), its bytes (an ArrayBuffer or a view), or where to find it: a Response, a URL, or
 * a string, which is a URL relative to that of the page or worker. The types of these objects are those of the libraries
 * for browsers and Node, which a program need not have, so any object is accepted here; `load` rejects the others.
 */
export type Source = string | object;

/** Compiles and instantiates vt100.wasm, which is beside vt100.js unless `source` is given. */
export declare function load(source?: Source | Promise<Source>): Promise<Vt100>;
