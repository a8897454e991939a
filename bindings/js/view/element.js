/**
 * The base class of elements. A server has no elements, but can import the modules of a page.
 */
export const ElementBase = globalThis.HTMLElement ?? /** @type {typeof HTMLElement} */ (class {});

/** Returns the number in an attribute of an element, or a default one if it has none that is positive. */
export function positiveIn(element, attribute, otherwise) {
  const number = Number(element.getAttribute(attribute));
  return number > 0 && number < Infinity ? number : otherwise;
}
