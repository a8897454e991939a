// Draws box-drawing characters and block elements (U+2500 to U+259F), so that they join between cells whatever the font.

// The arms of the characters from U+2500 on: up, right, down, left. 0 none, 1 light, 2 heavy, 3 double; "----" is left to
// the font.
const ARMS = [
  "0101 0202 1010 2020 ---- ---- ---- ---- ---- ---- ---- ---- 0110 0210 0120 0220", // U+2500
  "0011 0012 0021 0022 1100 1200 2100 2200 1001 1002 2001 2002 1110 1210 2110 1120", // U+2510
  "2120 2210 1220 2220 1011 1012 2011 1021 2021 2012 1022 2022 0111 0112 0211 0212", // U+2520
  "0121 0122 0221 0222 1101 1102 1201 1202 2101 2102 2201 2202 1111 1112 1211 1212", // U+2530
  "2111 1121 2121 2112 2211 1122 1221 2212 1222 2122 2221 2222 ---- ---- ---- ----", // U+2540
  "0303 3030 0310 0130 0330 0013 0031 0033 1300 3100 3300 1003 3001 3003 1310 3130", // U+2550
  "3330 1013 3031 3033 0313 0131 0333 1303 3101 3303 1313 3131 3333 0110 0011 1001", // U+2560
  "1100 ---- ---- ---- 0001 1000 0100 0010 0002 2000 0200 0020 0201 1020 0102 2010", // U+2570
].join(" ").split(" ");
const DOUBLE = 3;
const ARC = 0x256d;

// The quadrants of the characters from U+2596 on: upper left 1, upper right 2, lower left 4, lower right 8.
const QUADRANTS = [4, 8, 1, 13, 9, 7, 11, 2, 6, 14];

/** Fills a part of an arm: from `start`, measured outward from the center, to the edge of the cell. */
function fillArm(context, box, side, start, offset, thickness) {
  const { x, y, width, height, centerX, centerY } = box, half = Math.floor(thickness / 2);
  // A line of an odd number of pixels has one in the middle.
  const nearX = centerX - start + thickness % 2, nearY = centerY - start + thickness % 2;
  if (side === 0) context.fillRect(centerX + offset - half, y, thickness, nearY - y);
  if (side === 1) context.fillRect(centerX + start, centerY + offset - half, x + width - centerX - start, thickness);
  if (side === 2) context.fillRect(centerX + offset - half, centerY + start, thickness, y + height - centerY - start);
  if (side === 3) context.fillRect(x, centerY + offset - half, nearX - x, thickness);
}

/** Draws a light or heavy arm. It ends at the double lines that it meets, or in the middle. */
function drawSingle(context, box, arms, side) {
  const { light } = box, thickness = arms[side] === 1 ? light : 2 * light;
  const before = arms[(side + 3) % 4] === DOUBLE, after = arms[(side + 1) % 4] === DOUBLE;
  let start = -Math.floor(thickness / 2);
  if ((before || after) && arms[(side + 2) % 4] === 0) start = before && after ? light : -light - Math.floor(light / 2);
  fillArm(context, box, side, start, 0, thickness);
}

/** Draws the two lines of a double arm. Each ends at the neighboring double arm on its side, or in the outer corner. */
function drawDouble(context, box, arms, side) {
  const { light } = box, half = Math.floor(light / 2);
  // Offsets grow downward and to the right. The neighbor of the line with the smaller offset is up or left.
  const [lesser, greater] = side % 2 === 1 ? [0, 2] : [3, 1];
  for (const [near, far, offset] of [[lesser, greater, -light], [greater, lesser, light]]) {
    let start = -half;
    if (arms[near] === DOUBLE) start = light - half;
    else if (arms[far] === DOUBLE && arms[(side + 2) % 4] === 0) start = -light - half;
    fillArm(context, box, side, start, offset, light);
  }
}

/** Draws a rounded corner, from the middle of one edge of the cell to that of another. */
function drawArc(context, { x, y, width, height, light, centerX, centerY }, arms) {
  const [up, right] = arms;
  const half = light % 2 / 2; // the lines of other characters are rectangles of whole pixels
  context.strokeStyle = context.fillStyle;
  context.lineWidth = light;
  context.beginPath();
  context.moveTo(centerX + half, up ? y : y + height);
  context.quadraticCurveTo(centerX + half, centerY + half, right ? x + width : x, centerY + half);
  context.stroke();
}

/** Draws a block element that is not a shade: a part of the cell, in eighths, or quadrants. */
function drawBlock(context, box, code) {
  const { x, y, width, height } = box, column = (k) => Math.round(width * k / 8), line = (k) => Math.round(height * k / 8);
  const fill = (left, top, right, bottom) =>
    context.fillRect(x + column(left), y + line(top), column(right) - column(left), line(bottom) - line(top));
  if (code === 0x2580) fill(0, 0, 8, 4);
  else if (code <= 0x2588) fill(0, 8 - (code - 0x2580), 8, 8);
  else if (code <= 0x258f) fill(0, 0, 0x2590 - code, 8);
  else if (code === 0x2590) fill(4, 0, 8, 8);
  else if (code === 0x2594) fill(0, 0, 8, 1);
  else if (code === 0x2595) fill(7, 0, 8, 8);
  else {
    const quadrants = QUADRANTS[code - 0x2596];
    if (quadrants & 1) fill(0, 0, 4, 4);
    if (quadrants & 2) fill(4, 0, 8, 4);
    if (quadrants & 4) fill(0, 4, 4, 8);
    if (quadrants & 8) fill(4, 4, 8, 8);
  }
}

/** Draws one of the shades, U+2591 to U+2593. */
function drawShade(context, box, code) {
  const opacity = context.globalAlpha;
  context.globalAlpha = opacity * (code - 0x2590) / 4;
  context.fillRect(box.x, box.y, box.width, box.height);
  context.globalAlpha = opacity;
}

/**
 * Draws a character in a cell, in the current fill color. Returns false without drawing if the font must draw it.
 */
export function drawBoxCharacter(context, text, x, y, width, height) {
  const code = text.codePointAt(0);
  if (text.length !== 1 || code < 0x2500 || code > 0x259f) return false;
  const box = {
    x, y, width, height, light: Math.max(1, Math.round(width / 9)),
    centerX: x + Math.floor(width / 2), centerY: y + Math.floor(height / 2),
  };
  if (code >= 0x2580) {
    const isShade = code >= 0x2591 && code <= 0x2593;
    (isShade ? drawShade : drawBlock)(context, box, code);
    return true;
  }
  const arms = Array.from(ARMS[code - 0x2500], Number);
  if (arms.some(Number.isNaN)) return false;
  if (code >= ARC && code < ARC + 4) {
    drawArc(context, box, arms);
    return true;
  }
  arms.forEach((weight, side) => {
    if (weight !== 0) (weight === DOUBLE ? drawDouble : drawSingle)(context, box, arms, side);
  });
  return true;
}
