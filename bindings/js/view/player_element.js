import { positive } from "../lib/errors.js";
import { Cast } from "./cast.js";
import { CastPlayer } from "./cast_player.js";
import { ElementBase } from "./element.js";
import { PlayerControls } from "./player_controls.js";
import { pressKey } from "./player_keys.js";
import { adoptStyle } from "./styles.js";
import { TerminalView } from "./terminal_view.js";
import { Theme } from "./theme.js";

const STYLE = `
  :host { display: block; position: relative; font: 13px system-ui, sans-serif; }
  :host([hidden]), [hidden] { display: none !important; }
  .controls { display: flex; gap: 8px; align-items: center; padding: 6px 0; direction: ltr; }
  input[type=range] { flex: 1; min-width: 60px; }
  button { min-width: 4em; }
  button.full { min-width: 0; }
  button.full::before { content: ""; display: inline-block; width: 1em; height: .6em; border: 2px solid; }
  output { font-variant-numeric: tabular-nums; }
  .help { position: absolute; inset: 12px auto auto 12px; display: grid; grid-template-columns: auto auto; gap: 4px 16px;
    margin: 0; padding: 12px 16px; direction: ltr; color: #fff; background: #000d; border-radius: 6px; }
  dt { font-weight: bold; } dd { margin: 0; }
  :host(:fullscreen) { display: flex; flex-direction: column; padding: 0 8px; background: #000; color: #fff; }
  :host(:fullscreen) .view { flex: 1; min-height: 0; }
  :host(:fullscreen) .view > * { height: 100%; }
`;
const EVENTS = ["play", "pause", "ended", "seeked", "timeupdate", "ratechange"];
const ATTRIBUTES_OF_VIEW = ["fit", "font-size", "font-family", "line-height"];

/** Returns the number of seconds in an attribute: a number, or `m:ss` or `h:mm:ss`. Throws a RangeError for other text. */
function secondsOf(name, text) {
  const parts = text.trim().split(":"), seconds = parts.reduce((sum, part) => 60 * sum + Number(part || NaN), 0);
  if (!(seconds >= 0) || parts.length > 3) throw new RangeError(`${name} must be a time, not ${JSON.stringify(text)}`);
  return seconds;
}

/**
 * An element that plays recordings: `<vt100-player src="session.cast">`. It has a view and controls. view.d.ts describes
 * the interface.
 */
export class CastPlayerElement extends ElementBase {
  static observedAttributes = ["src", ...ATTRIBUTES_OF_VIEW];

  #player = null;
  #rate = 1;
  #view = new TerminalView();
  #controls = new PlayerControls(this);
  /** Ends the download of the recording, if one is going on. */
  #download = null;
  /** The screen that is displayed until the recording is played, or null. */
  #poster = null;
  /** The theme of the page, and that of the last recording. */
  #pageTheme = Theme.dark;
  #castTheme = null;

  /** What `load` of vt100.js returned. Unless it is assigned, it is loaded from beside this directory. */
  vt100 = null;

  constructor() {
    super();
    const root = this.attachShadow({ mode: "open" }), box = document.createElement("div");
    adoptStyle(root, STYLE);
    box.className = "view";
    box.append(this.#view);
    root.append(box, this.#controls.element, this.#controls.help);
    this.#view.addEventListener("keydown", (event) => pressKey(event, this));
    this.addEventListener("fullscreenchange", () => this.#fitFullscreen());
  }

  attributeChangedCallback(name, _, value) {
    if (name === "src") this.#sourceChanged(value);
    else if (value === null) this.#view.removeAttribute(name);
    else this.#view.setAttribute(name, value);
  }

  disconnectedCallback() {
    this.pause();
  }

  get src() {
    return this.getAttribute("src");
  }

  set src(url) {
    if (url === null) this.removeAttribute("src");
    else this.setAttribute("src", url);
  }

  get view() {
    return this.#view;
  }

  get player() {
    return this.#player;
  }

  /** Loads the recording of the attribute. Without it, the loaded one stays. */
  #sourceChanged(url) {
    if (url === null) return this.#download?.abort();
    this.load(url).catch((error) => error.name === "AbortError" || this.#fail(error));
  }

  async load(url) {
    this.#download?.abort();
    const download = this.#download = new AbortController(), { signal } = download;
    const [response] = await Promise.all([fetch(new URL(url, document.baseURI), { signal }), this.#loadLibrary()]);
    if (!response.ok) throw new Error(`${url}: ${response.status} ${response.statusText}`);
    const text = await response.text();
    // A later recording may have been opened while the library was loaded.
    signal.throwIfAborted();
    this.open(text);
  }

  async #loadLibrary() {
    this.vt100 ??= await (await import("../vt100.js")).load();
  }

  open(recording) {
    if (this.vt100 === null) throw new TypeError("the property vt100 must be set before open() is called");
    const cast = recording instanceof Cast ? recording : new Cast(recording), limit = this.getAttribute("idle-time-limit");
    const poster = this.getAttribute("poster"), posterTime = poster === null ? null : secondsOf("poster", poster);
    const options = { playbackRate: this.#rate, ...(limit === null ? {} : { idleTimeLimit: Number(limit) }) };
    const player = new CastPlayer(this.vt100, cast, options);
    this.#download?.abort();
    this.#removePoster();
    this.#player?.free();
    this.#player = player;
    this.#adoptTheme(cast);
    this.#view.attach(player.parser);
    player.addEventListener("screenchange", () => this.#screenChanged(player));
    for (const type of EVENTS) player.addEventListener(type, () => this.#changed(player, type));
    this.#controls.setRecording(player.duration, player.markers);
    if (posterTime !== null) this.#showPoster(posterTime);
    this.#controls.show(this);
    this.#view.draw();
    this.dispatchEvent(new Event("loadeddata"));
    if (this.hasAttribute("autoplay")) this.play();
  }

  /** Gives the view the colors of a recording or, if it has none, those of the page. */
  #adoptTheme(cast) {
    if (this.#view.theme !== this.#castTheme) this.#pageTheme = this.#view.theme;
    this.#castTheme = Theme.fromCast(cast.theme, this.#pageTheme);
    this.#view.theme = this.#castTheme;
  }

  /** Displays the screen of a time, while the player stays at the beginning. */
  #showPoster(time) {
    const player = this.#player;
    player.seek(time);
    const poster = player.parser.save();
    player.seek(0);
    this.#poster = poster;
    this.#view.attach(poster);
  }

  #removePoster() {
    if (this.#poster === null) return;
    if (this.#player !== null) this.#view.attach(this.#player.parser);
    this.#poster.free();
    this.#poster = null;
  }

  play() {
    this.#player?.play();
  }

  pause() {
    this.#player?.pause();
  }

  toggle() {
    if (this.#player?.paused) this.play();
    else this.pause();
  }

  seek(seconds) {
    this.#player?.seek(seconds);
  }

  async toggleFullscreen() {
    if (!document.fullscreenEnabled) throw new TypeError("the page may not use fullscreen");
    if (document.fullscreenElement === this) await document.exitFullscreen();
    else await this.requestFullscreen();
  }

  toggleHelp() {
    this.#controls.help.hidden = !this.#controls.help.hidden;
  }

  #fitFullscreen() {
    const isFullscreen = this.matches(":fullscreen");
    this.#view.setAttribute("fit", isFullscreen ? "both" : this.getAttribute("fit") ?? "none");
    if (isFullscreen) this.#view.focus();
  }

  get currentTime() {
    return this.#player?.currentTime ?? 0;
  }

  set currentTime(seconds) {
    this.seek(seconds);
  }

  get duration() {
    return this.#player?.duration ?? NaN;
  }

  get paused() {
    return this.#player?.paused ?? true;
  }

  get ended() {
    return this.#player?.ended ?? false;
  }

  get loop() {
    return this.hasAttribute("loop");
  }

  set loop(isLooping) {
    this.toggleAttribute("loop", Boolean(isLooping));
  }

  get playbackRate() {
    return this.#rate;
  }

  set playbackRate(rate) {
    this.#rate = positive("playbackRate", rate);
    if (this.#player !== null) this.#player.playbackRate = rate;
    this.#controls.rate = rate;
  }

  #screenChanged(player) {
    if (player !== this.#player) return;
    this.#removePoster();
    this.#view.requestDraw();
  }

  #changed(player, type) {
    if (player !== this.#player) return;
    if (type === "play") this.#removePoster();
    // Nobody can listen to a screen that changes all the time.
    if (type === "play" || type === "pause") this.#view.announces = player.paused;
    this.#controls.show(this);
    this.dispatchEvent(new Event(type));
    // A recording without duration would end at once, again and again.
    if (type === "ended" && this.loop && player.duration > 0) this.play();
  }

  #fail(error) {
    const message = String(error.message ?? error);
    this.#controls.message = message;
    this.dispatchEvent(new ErrorEvent("error", { error, message }));
  }
}
