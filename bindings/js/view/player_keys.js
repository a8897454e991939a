const STEP = 5; // seconds

/** How long after a marker `[` still goes to that marker, in seconds. */
const GRACE = 0.5;

/** Returns what a key does to a player, or undefined. `player` has the members of CastPlayerElement. */
function actionOf(key, shiftKey, player) {
  const { currentTime, duration } = player, markers = player.player.markers.map(({ time }) => time);
  const step = shiftKey ? duration / 10 : STEP;
  if (/^[0-9]$/.test(key)) return () => player.seek(duration * Number(key) / 10);
  return {
    " ": () => player.toggle(),
    ArrowLeft: () => player.seek(currentTime - step),
    ArrowRight: () => player.seek(currentTime + step),
    "[": () => player.seek(markers.findLast((time) => time < currentTime - GRACE) ?? 0),
    "]": () => player.seek(markers.find((time) => time > currentTime) ?? duration),
    ",": () => player.player.step(-1),
    ".": () => player.player.step(1),
    f: () => player.toggleFullscreen().catch(() => {}), // the browser may refuse it
    "?": () => player.toggleHelp(),
  }[key.length === 1 ? key.toLowerCase() : key];
}

/** Has a player do what a key means. Keys with other modifiers than Shift are left alone. */
export function pressKey(event, player) {
  const { key, shiftKey } = event;
  if (event.ctrlKey || event.altKey || event.metaKey || event.defaultPrevented || player.player === null) return;
  const action = actionOf(key, shiftKey, player);
  if (action === undefined) return;
  event.preventDefault();
  action();
}
