// All modules for pages in one. The package contains them bundled, so that a page loads one file instead of 30.

export * from "./keys.js";
export * from "./mouse.js";
export * from "./view/view.js";
export * from "./vt100.js";
