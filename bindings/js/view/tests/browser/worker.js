// A worker that loads the module from a URL relative to its own, and reports the version or what failed.

import { load } from "../../../vt100.js";

const { version } = await load("../../../vt100.wasm").catch(({ message }) => ({ version: message }));
postMessage(version);
