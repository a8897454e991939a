/** All modules for pages in one: vt100.js, view.js, keys.js and mouse.js. Importing it defines the elements. */

export * from "./keys.js";
export * from "./mouse.js";
export * from "./view/view.js";
export * from "./vt100.js";
