// Monitors with fractional numbers of device pixels for each CSS pixel: what is on the screen is the canvas, pixel by pixel.

import assert from "node:assert/strict";
import { test } from "node:test";
import { openPage } from "./setup.mjs";

const TEXT = `${"Hello │─┼ 日本 \x1b[7minv\x1b[m iIlL1 0123 ║═╬\r\n".repeat(9)}\x1b[?25l`;
const PLACES = [["0px", "0px"], ["7px", "3px"], ["0.3px", "0.7px"]];

/** Returns the number of pixels in which a screenshot differs from the canvas, in a page that has the function. */
const COUNT_DIFFERENCES = `async (png) => {
  const image = new Image();
  image.src = "data:image/png;base64," + png;
  await image.decode();
  const canvas = canvasOf(), copy = document.createElement("canvas"), { left, top } = canvas.getBoundingClientRect();
  [copy.width, copy.height] = [canvas.width, canvas.height];
  const context = copy.getContext("2d");
  context.drawImage(image, -Math.round(left * devicePixelRatio), -Math.round(top * devicePixelRatio));
  const seen = context.getImageData(0, 0, copy.width, copy.height).data, drawn = pixels();
  return drawn.filter((level, at) => Math.abs(level - seen[at]) > 2).length;
}`;

for (const ratio of [1, 1.25, 1.5, 1.75, 2]) {
  test(`text is sharp with ${ratio} device pixels`, async () => {
    const browser = await openPage("tests/browser/blank.html", { ratio, isRealRatio: true });
    assert.equal(await browser.evaluate("devicePixelRatio"), ratio);
    for (const direction of ["ltr", "rtl"]) {
      for (const [left, top] of PLACES) {
        await browser.evaluate(`document.documentElement.dir = "${direction}";
          view.style.cssText = "margin: ${top} 0 0 ${left}";
          show(10, 40, ${JSON.stringify(TEXT)});
          view.redraw();
          new Promise((done) => requestAnimationFrame(() => requestAnimationFrame(() => done(0))))`);
        const png = (await browser.screenshot()).toString("base64");
        const differences = await browser.evaluate(`(${COUNT_DIFFERENCES})("${png}")`);
        assert.equal(differences, 0, `${direction}, at ${left} ${top}`);
      }
    }
    assert.deepEqual(browser.messages, []);
  });
}
