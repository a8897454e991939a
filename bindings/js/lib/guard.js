// Calls into the module, which may be interrupted.

/** The name of a function that changes nothing, which shows whether the module still works. */
const HARMLESS = "vt100_kind";

const CONSEQUENCE = ": objects may be half changed, so call load() again";

/**
 * The functions of a module. An error that interrupts one of them, such as an overflow of JavaScript's stack, may leave
 * objects half changed. The module then traps whenever it is called, and the errors name what interrupted it.
 */
export class Guard {
  #kindOf;
  #emptyHandle = null;
  #cause = null;
  #isChecked = true;
  /** The error for a call that was interrupted. It is made here, since an overflow leaves no stack to make it. */
  #interruption = new WebAssembly.RuntimeError(`a call was interrupted${CONSEQUENCE}`);
  /** The guarded functions, by their names. */
  functions;

  constructor(exports) {
    this.#kindOf = exports[HARMLESS];
    const functions = Object.entries(exports).filter(([, value]) => typeof value === "function");
    this.functions = Object.fromEntries(functions.map(([name, call]) => [name, this.#guarded(call)]));
  }

  /** Sets the address of an empty handle, with which the module can be tried. */
  set emptyHandle(at) {
    this.#emptyHandle = at;
  }

  #guarded(call) {
    return (...words) => {
      if (!this.#isChecked) this.#check();
      try {
        return call(...words);
      } catch (error) {
        this.#cause ??= error;
        this.#isChecked = false;
        if (error instanceof WebAssembly.RuntimeError || error instanceof TypeError) throw error;
        this.#interruption.cause = error;
        throw this.#interruption;
      }
    };
  }

  /** Throws an error if the call that was interrupted had begun, since the module then traps. */
  #check() {
    try {
      if (this.#emptyHandle !== null) this.#kindOf(this.#emptyHandle);
    } catch {
      const message = `an earlier call was interrupted by ${this.#cause}${CONSEQUENCE}`;
      throw Object.assign(new WebAssembly.RuntimeError(message), { cause: this.#cause });
    }
    this.#cause = null;
    this.#isChecked = true;
  }
}
