import type { MouseProtocolEncoding, MouseProtocolMode, Position } from "./vt100.js";

/**
 * The properties of a MouseEvent or a WheelEvent that determine what a terminal sends. `type` is "mousedown", "mouseup",
 * "mousemove" or "wheel"; nothing is sent for other events. `deltaX` and `deltaY` are those of a wheel: only their signs
 * matter, and `deltaX` only if `deltaY` is 0.
 */
export interface MouseInput {
  readonly type: string;
  readonly button: number;
  readonly buttons: number;
  readonly deltaX?: number;
  readonly deltaY?: number;
  readonly shiftKey: boolean;
  readonly altKey: boolean;
  readonly ctrlKey: boolean;
}

/**
 * Returns the bytes that a terminal sends for an event of the mouse over a cell, or null if it sends nothing: the program
 * has not requested such events, or its encoding has no number for the cell. The bytes are those of xterm's mouse
 * tracking. `state` is the state of the program's screen.
 *
 * Each call with "wheel" is one step of the wheel, and each call with "mousemove" one report: a terminal sends the latter
 * only when the mouse enters another cell.
 */
export function mouseBytes(
  event: MouseInput,
  cell: Position,
  state: { readonly mouseProtocolMode: MouseProtocolMode; readonly mouseProtocolEncoding: MouseProtocolEncoding },
): Uint8Array | null;
