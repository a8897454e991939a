/**
 * Gives a shadow root a style. It is not inline, so that it needs no permission of a Content-Security-Policy, except in
 * browsers of 2022 and before, which have only inline styles.
 */
export function adoptStyle(root, css) {
  try {
    const sheet = new CSSStyleSheet();
    sheet.replaceSync(css);
    root.adoptedStyleSheets = [sheet];
  } catch {
    const style = document.createElement("style");
    style.textContent = css;
    root.append(style);
  }
}
