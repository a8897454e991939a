// The script of policy.html: plays a recording.

import "../../view.js";

const player = document.createElement("vt100-player");
globalThis.player = player;
document.body.append(player);
document.body.dataset.isReady = "true";
