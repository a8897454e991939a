const SPEEDS = [0.5, 1, 2, 4, 8];

const KEYS = [
  ["Space", "play or pause"], ["← →", "back or forward by 5 seconds"], ["Shift+← →", "by a tenth of the recording"],
  ["0 to 9", "to that tenth"], ["[ ]", "to the previous or next marker"], [", .", "back or forward by one output"],
  ["F", "fullscreen"], ["?", "this list"],
];

/** Returns seconds as minutes and seconds. */
export function clockTime(seconds) {
  const whole = Math.floor(seconds);
  return `${Math.floor(whole / 60)}:${String(whole % 60).padStart(2, "0")}`;
}

/** Returns a new element with attributes and children. Pages may forbid to make elements from text. */
function element(name, attributes = {}, ...children) {
  const made = document.createElement(name);
  for (const [attribute, value] of Object.entries(attributes)) made.setAttribute(attribute, value);
  made.append(...children);
  return made;
}

function speedOption(rate) {
  return element("option", { value: rate }, `${rate}×`);
}

/** The controls of a player. `player` has the members of CastPlayerElement. */
export class PlayerControls {
  #button = element("button", { type: "button", part: "button" }, "Play");
  #slider = element("input", { type: "range", min: 0, value: 0, step: "any", "aria-label": "Time", list: "markers" });
  #markers = element("datalist", { id: "markers" });
  #output = element("output", { "aria-live": "off" });
  #speed = element("select", { "aria-label": "Speed" }, ...SPEEDS.map(speedOption));
  #full = element("button", { type: "button", part: "button", class: "full", "aria-label": "Fullscreen" });
  /** The list of keys. */
  help = element("dl", { class: "help", role: "note", "aria-label": "Keys", hidden: "" },
    ...KEYS.flatMap(([keys, effect]) => [element("dt", {}, keys), element("dd", {}, effect)]));
  element = element("div", { class: "controls", role: "group", "aria-label": "Player" },
    this.#button, this.#slider, this.#markers, this.#output, this.#speed, this.#full);

  constructor(player) {
    this.#button.addEventListener("click", () => player.toggle());
    this.#slider.addEventListener("input", () => player.seek(Number(this.#slider.value)));
    this.#speed.addEventListener("change", () => (player.playbackRate = Number(this.#speed.value)));
    this.#full.addEventListener("click", () => player.toggleFullscreen().catch(() => {})); // the browser may refuse it
    this.#full.hidden = !document.fullscreenEnabled;
    this.rate = 1;
  }

  /** Shows a message in place of the time. */
  set message(text) {
    this.#output.textContent = text;
  }

  set rate(rate) {
    const isKnown = [...this.#speed.options].some(({ value }) => Number(value) === rate);
    if (!isKnown) this.#speed.append(speedOption(rate));
    this.#speed.value = String(rate);
  }

  /** Sets the duration, and the markers of the slider. */
  setRecording(duration, markers) {
    this.#slider.max = String(duration);
    this.#markers.replaceChildren(...markers.map(({ time, label }) => new Option(label, String(time))));
  }

  /** Shows whether and where a recording is played. */
  show({ paused, currentTime, duration }) {
    this.#button.textContent = paused ? "Play" : "Pause";
    this.#slider.value = String(currentTime);
    this.message = `${clockTime(currentTime)} / ${clockTime(duration)}`;
    this.#slider.setAttribute("aria-valuetext", `${clockTime(currentTime)} of ${clockTime(duration)}`);
  }
}
