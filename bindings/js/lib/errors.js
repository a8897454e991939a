// Errors, and checks of arguments.

export const OUT_OF_MEMORY = 1;
const BAD_ARGUMENT = 3;
export const NO_OBJECT = 6;

const STATUSES = {
  [OUT_OF_MEMORY]: "out of memory",
  2: "the parser or mirror ran out of memory in an earlier call and processes no more bytes",
  4: "the object is of a different kind",
  5: "the screens have different sizes",
  [NO_OBJECT]: "the object is freed",
  7: "the object is initialized already",
  8: "the mirror has no viewer number left",
};

const MAX_U16 = 0xffff;
const MAX_U64 = 0xffffffffffffffffn;

/** An error that is not an invalid argument, such as a failed allocation. `status` is a constant of vt100.h. */
export class Vt100Error extends Error {
  constructor(status) {
    super(STATUSES[status] ?? `status ${status}`);
    this.name = "Vt100Error";
    this.status = status;
  }
}

/** Returns the error for a status other than 0. */
export function errorOf(status) {
  if (status === BAD_ARGUMENT) return new RangeError("no such size, row, cell, range or viewer");
  return new Vt100Error(status);
}

/** Returns the error for an allocation that failed. */
export function outOfMemory() {
  return new Vt100Error(OUT_OF_MEMORY);
}

/** Returns `value` if it is an integer in a range: WebAssembly would take any other number modulo 2^32. */
export function inRange(name, value, low, high) {
  if (typeof value !== "number") throw new TypeError(`${name} must be a number, not ${typeof value}`);
  if (!Number.isInteger(value) || value < low || value > high) {
    throw new RangeError(`${name} must be an integer from ${low} to ${high}, not ${value}`);
  }
  return value;
}

/** Returns `value` if it is a row, a column or a width. */
export function inU16(name, value) {
  return inRange(name, value, 0, MAX_U16);
}

/** Returns whether `value`, which must be a number, can be a row or a column. */
export function isU16(name, value) {
  if (typeof value !== "number") throw new TypeError(`${name} must be a number, not ${typeof value}`);
  return Number.isInteger(value) && value >= 0 && value <= MAX_U16;
}

/** Returns the numbers of rows and columns if both are valid. */
export function sizeInRange(rows, cols) {
  return [inRange("rows", rows, 1, MAX_U16), inRange("cols", cols, 1, MAX_U16)];
}

/** Returns a number of rows of scrollback as a bigint. Infinity, and any number that is not exact, means all rows. */
export function rowCount(name, value) {
  const isLarge = typeof value === "number" && value > Number.MAX_SAFE_INTEGER;
  return BigInt(inRange(name, isLarge ? Number.MAX_SAFE_INTEGER : value, 0, Number.MAX_SAFE_INTEGER));
}

/** Returns `options` if it is an object all of whose own properties are among `names`. */
export function optionsAmong(names, options) {
  if (typeof options !== "object" || options === null) {
    throw new TypeError(`the options must be an object, not ${options === null ? "null" : typeof options}`);
  }
  const unknown = Object.keys(options).find((name) => !names.includes(name));
  if (unknown !== undefined) throw new TypeError(`there is no option ${unknown}, only ${names.join(", ")}`);
  return options;
}

/** Returns `value` if it is a boolean. */
export function booleanOf(name, value) {
  if (typeof value !== "boolean") throw new TypeError(`${name} must be a boolean, not ${typeof value}`);
  return value;
}

/** Returns `value` if it is a finite number that is greater than 0. */
export function positive(name, value) {
  if (typeof value !== "number") throw new TypeError(`${name} must be a number, not ${typeof value}`);
  if (!(value > 0 && value < Infinity)) throw new RangeError(`${name} must be positive, not ${value}`);
  return value;
}

/** Returns `value` if it is a number that is not negative. */
export function notNegative(name, value) {
  if (typeof value !== "number") throw new TypeError(`${name} must be a number, not ${typeof value}`);
  if (!(value >= 0)) throw new RangeError(`${name} must not be negative, and not ${value}`);
  return value;
}

/** Returns `value` if it is among `values`, which are strings. */
export function oneOf(name, value, values) {
  if (typeof value !== "string") throw new TypeError(`${name} must be a string, not ${typeof value}`);
  if (!values.includes(value)) throw new RangeError(`${name} must be one of ${values.join(", ")}, not ${value}`);
  return value;
}

/** Returns `viewer` if it can be the number of a viewer. */
export function viewerInRange(viewer) {
  if (typeof viewer !== "bigint") throw new TypeError(`viewer must be a bigint, not ${typeof viewer}`);
  if (viewer < 0n || viewer > MAX_U64) throw new RangeError(`viewer must be from 0 to ${MAX_U64}, not ${viewer}`);
  return viewer;
}
