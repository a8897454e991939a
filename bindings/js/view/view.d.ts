/// <reference lib="es2020" />
/// <reference lib="dom" />

/** A viewer for the screens of vt100.js, and a player of recordings. Importing view.js defines the elements. */

import type { Parser, Position, Screen, Size, Vt100 } from "../vt100.js";

/** Colors are written as in CSS. */
export interface ThemeColors {
  foreground?: string;
  background?: string;
  /** The cursor, and the character that a block cursor covers. By default, they are those of text, exchanged. */
  cursor?: string;
  cursorText?: string;
  /** The background of the selection, and its text; null keeps the colors of the text. */
  selection?: string;
  selectionText?: string | null;
  /** The opacity of dim text, from 0 to 1. */
  dimOpacity?: number;
  /** The colors of the palette, from index 0 on. Missing ones are the default ones: xterm's from index 16 on. */
  palette?: readonly string[];
}

/** The colors of a view. A theme does not change. */
export declare class Theme implements Required<ThemeColors> {
  constructor(colors?: ThemeColors);
  static readonly dark: Theme;
  static readonly light: Theme;
  /** Returns the theme in a recording's header, or `fallback` if it has none. */
  static fromCast(theme: CastTheme | null, fallback?: Theme): Theme;
  readonly foreground: string;
  readonly background: string;
  readonly cursor: string;
  readonly cursorText: string;
  readonly selection: string;
  readonly selectionText: string | null;
  readonly dimOpacity: number;
  /** All 256 colors. */
  readonly palette: readonly string[];
}

/** Two positions, of which the end is excluded. Rows are counted from the oldest scrollback row. */
export interface SelectedRange {
  readonly start: Position;
  readonly end: Position;
}

/** The events of a view: those of every element, and its own. */
export interface ViewEventMap extends HTMLElementEventMap {
  /** The display was scrolled, by a person or by output, or the number of scrollback rows has changed. */
  scrollbackchange: CustomEvent<{ scrollback: number; scrollbackLen: number }>;
  selectionchange: CustomEvent<{ range: SelectedRange | null }>;
  /** The font, and thus the size of a cell in CSS pixels, has changed. */
  cellsizechange: CustomEvent<{ cellWidth: number; cellHeight: number }>;
}

/**
 * An element that draws a screen on a canvas: `<vt100-view>`.
 *
 * Attributes: `font-size` (CSS pixels), `font-family`, `line-height` (a factor) and `fit`; each is also a property.
 *
 * The view does not notice when its screen changes: call `draw` or `requestDraw` after `process`. Several views may draw
 * the same screen. Scrolling changes the screen's `scrollback`.
 */
export declare class TerminalView extends HTMLElement {
  /** The screen that is drawn, or null. */
  readonly screen: Screen | null;
  /** Draws a screen from now on. The caller frees it. A view whose screen is freed draws nothing. */
  attach(screen: Screen): void;
  /** Stops drawing. The canvas keeps what was drawn last. */
  detach(): void;

  /** Draws the rows that have changed, at once, and returns their number. */
  draw(): number;
  /** Draws what has changed before the next frame. Many calls between two frames are one drawing. */
  requestDraw(): void;
  /** Measures the font again, draws all rows, and returns their number. When a font of the page's style has been loaded,
      the view does so by itself. */
  redraw(): number;

  /** The colors. Also accepts an object, of which it makes a Theme. */
  get theme(): Theme;
  set theme(theme: Theme | ThemeColors);
  /** The size in CSS pixels. A value that is not positive is a RangeError; in the attribute, it stands for 16. */
  fontSize: number;
  fontFamily: string;
  /** A factor, which must be positive. */
  lineHeight: number;
  /**
   * "none": the font has its size. "width": it is the largest with which the columns fit in the element. "both": it is
   * the largest with which columns and rows fit; the element must get its height from the page.
   */
  fit: "none" | "width" | "both";
  /** The shape of a cursor with the default style. The default is "block". */
  cursorShape: "block" | "underline" | "bar";
  /** The width of a cell in CSS pixels; 0 before the first drawing. */
  readonly cellWidth: number;
  readonly cellHeight: number;
  /** Returns the size of a screen that fills an area, whose lengths are in CSS pixels, in the current font. */
  sizeThatFits(width: number, height: number): Size;
  /** Returns the displayed cell at a point of the window, as MouseEvent has it, or null if there is none. */
  cellAt(clientX: number, clientY: number): Position | null;

  /** Scrolls the display back by a number of rows, or forward if it is negative. */
  scrollRows(count: number): void;
  /** Whether the page sends mouse events to programs that request them. The view then leaves those events alone, unless
      Shift is pressed. The default is false. */
  mouseReporting: boolean;
  /** Whether the view reacts to fingers: one that moves up or down scrolls, and a long press selects. The default is
      true. */
  touchInput: boolean;

  /** The selected range, or null. */
  readonly selectedRange: SelectedRange | null;
  /** The selected text. Wrapped rows are one line. */
  readonly selectedText: string;
  select(start: Position, end: Position): void;
  /** Selects the page and all scrollback rows. */
  selectAll(): void;
  clearSelection(): void;

  /** Whether a screen reader announces rows that have changed. The default is true. */
  announces: boolean;

  addEventListener<K extends keyof ViewEventMap>(type: K, listener: (this: TerminalView, event: ViewEventMap[K]) => unknown,
    options?: boolean | AddEventListenerOptions): void;
  addEventListener(type: string, listener: EventListenerOrEventListenerObject,
    options?: boolean | AddEventListenerOptions): void;
}

/** The theme in a recording's header. `palette` has 8 or 16 colors, joined by colons. */
export interface CastTheme {
  readonly fg?: string;
  readonly bg?: string;
  readonly palette?: string;
}

/** An event of a recording. The time is in seconds from the beginning. */
export interface CastEvent {
  readonly time: number;
  /** "o": output; "r": a resize; "i": input; "m": a marker; "x": the end of the program. */
  readonly kind: string;
  readonly data: string;
  /** The new size, of a resize. */
  readonly rows?: number;
  readonly cols?: number;
}

/** A recording of version 1, 2 or 3 of asciinema's format. */
export declare class Cast {
  /** Parses the text of a recording. Throws a SyntaxError with the number of the line if it is damaged, or if a terminal
      has more than 2000 rows or columns, or 250,000 cells. */
  constructor(text: string);
  readonly version: 1 | 2 | 3;
  /** Whether the last line was cut off, as that of a recorder that was killed. The line is then ignored. */
  readonly isCutOff: boolean;
  readonly rows: number;
  readonly cols: number;
  readonly title: string;
  readonly theme: CastTheme | null;
  /** The longest pause in seconds, as the header has it; Infinity by default. */
  readonly idleTimeLimit: number;
  readonly events: readonly CastEvent[];
  /** Returns the events, with pauses between two of them shortened to `limit` seconds. */
  withIdleTimeLimit(limit: number): CastEvent[];
}

export interface CastPlayerOptions {
  /** The maximum number of scrollback rows. The default is 500. */
  scrollback?: number;
  /** The longest pause in seconds. The default is that of the recording. */
  idleTimeLimit?: number;
  playbackRate?: number;
  /** The number of characters between two saved screens (65,536), and the maximum number of saved screens (32). */
  keyframes?: { interval?: number; limit?: number };
}

/**
 * Plays a recording on a parser. The names are those of HTMLMediaElement, and so are the events: play, pause, ended,
 * seeked, timeupdate and ratechange. The event screenchange says that the screen is to be drawn.
 */
export declare class CastPlayer extends EventTarget {
  constructor(vt100: Pick<Vt100, "Parser" | "Charsets">, cast: Cast, options?: CastPlayerOptions);
  readonly cast: Cast;
  /** The parser, which is the same one throughout. */
  readonly parser: Parser;
  /** The length in seconds, after pauses were shortened. */
  readonly duration: number;
  readonly markers: readonly { readonly time: number; readonly label: string }[];
  readonly paused: boolean;
  readonly ended: boolean;
  /** The time in seconds. Assigning it seeks. */
  currentTime: number;
  /** How many times as fast as recorded it plays. Must be positive. */
  playbackRate: number;
  /** Plays on, or from the beginning after the end. */
  play(): void;
  pause(): void;
  /** Displays the screen of a time, from the last saved screen before it. */
  seek(seconds: number): void;
  /** Pauses, and goes to the next time at which there is output or a resize, or to the last one before if `count` is
      negative. Throws a RangeError if `count` is 0. */
  step(count: number): void;
  /** Frees the parser and the saved screens. */
  free(): void;
}

/**
 * An element that plays a recording, with controls: `<vt100-player src="session.cast">`.
 *
 * Attributes: `src`, `autoplay`, `loop`, `poster` (the time of the screen that is displayed before playing, in seconds or
 * as `m:ss`), `idle-time-limit` (seconds), and those of `<vt100-view>`. Events: those of CastPlayer other than
 * screenchange, `loadeddata`, and `error` with a message.
 *
 * Keys, while the view has the focus: space plays or pauses; the arrows move by 5 seconds, with Shift by a tenth of the
 * recording; a digit goes to that tenth; `[` and `]` go to a marker, `,` and `.` to the output before or after; `f` is for
 * fullscreen; and `?` lists the keys. A screen reader announces changes only while the recording is paused.
 */
export declare class CastPlayerElement extends HTMLElement {
  /** The library; by default the one that `load` of ../vt100.js returns. */
  vt100: Pick<Vt100, "Parser" | "Charsets"> | null;
  /** The URL of the recording. Assigning it loads the recording, in place of one that is still loaded. With null, the
      recording stays. */
  src: string | null;
  readonly view: TerminalView;
  /** The player of the loaded recording, or null. */
  readonly player: CastPlayer | null;
  /** Loads a recording from a URL. Is rejected with an AbortError if another one is loaded before. */
  load(url: string): Promise<void>;
  /** Displays a recording. The property `vt100` must be set. */
  open(recording: string | Cast): void;
  play(): void;
  pause(): void;
  /** Plays or pauses. */
  toggle(): void;
  /** Begins or ends fullscreen. Is rejected with a TypeError if the browser refuses it. */
  toggleFullscreen(): Promise<void>;
  /** Shows or hides the list of keys. */
  toggleHelp(): void;
  seek(seconds: number): void;
  currentTime: number;
  readonly duration: number;
  readonly paused: boolean;
  readonly ended: boolean;
  /** Whether playing begins again at the end (the attribute `loop`). */
  loop: boolean;
  /** How many times as fast as recorded it plays. It is kept for later recordings. Throws a RangeError unless it is
      positive. */
  playbackRate: number;
}

declare global {
  interface HTMLElementTagNameMap {
    "vt100-view": TerminalView;
    "vt100-player": CastPlayerElement;
  }
}
