/** The properties of a KeyboardEvent that determine what a terminal sends. */
export interface Key {
  readonly key: string;
  /** The place of the key, such as "KeyA". With Ctrl, it selects the control character on keyboards whose characters are
      not ASCII. It distinguishes the keys of the numeric keypad, such as "Numpad0", from others. */
  readonly code?: string;
  readonly ctrlKey: boolean;
  readonly altKey: boolean;
  readonly shiftKey: boolean;
  readonly metaKey: boolean;
  readonly isComposing: boolean;
  /** Returns whether a modifier is active. It is asked for "NumLock" only. */
  getModifierState?(name: string): boolean;
}

/**
 * Returns what a terminal of type caldrosk-256color sends for a key, or null if it sends nothing. `state` is the state of
 * the program's screen, since programs can request other sequences for the cursor keys and the numeric keypad.
 *
 * A character is preceded by ESC if Alt is pressed, unless AltGr, or Option on a Mac, has selected the character. `isMac`
 * is by default whether the page is displayed on a Mac.
 *
 * In application mode (DECKPAM), the keys of the numeric keypad send ESC O and a letter, as on a VT220, unless NumLock or
 * a modifier is active. Without `applicationKeypad`, the keypad is in numeric mode.
 */
export function keyText(
  key: Key,
  state: { readonly applicationCursor: boolean; readonly applicationKeypad?: boolean },
  options?: { readonly isMac?: boolean },
): string | null;

/**
 * Returns what a terminal sends when the user pastes text: with CR for each newline, without other controls than TAB and,
 * if the program has set bracketed paste mode, between brackets.
 */
export function pasteText(text: string, state: { readonly bracketedPaste: boolean }): string;
