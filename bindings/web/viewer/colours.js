/** The golden angle keeps the hues of neighbours apart. */
const HUE_STEP = 137.508;
const FIRST_HUE = 212;
/** How far the hues of one source's tokens, and their lightness, are from the source's own. */
const HUE_REACH = 13;
const LIGHT_REACH = 3.5;

/** The hue of a source, in degrees. */
export function hueOf(source) {
  return (FIRST_HUE + source * HUE_STEP) % 360;
}

/** Paints an element in the colour of an original position: a shade of its source's. */
export function paint(element, { source, line, column }) {
  const noise = scatter(line, column);
  const part = (bits) => ((noise >>> bits) & 0x3ff) / 0x3ff * 2 - 1;
  element.style.setProperty('--hue', (hueOf(source) + part(0) * HUE_REACH).toFixed(2));
  element.style.setProperty('--shade', `${(part(10) * LIGHT_REACH).toFixed(2)}%`);
}

/** A number of 32 bits that differs much for positions that differ little. */
function scatter(line, column) {
  let bits = Math.imul(line + 1, 0x9e3779b1) ^ Math.imul(column + 1, 0x85ebca6b);
  bits = Math.imul(bits ^ (bits >>> 15), 0x2c1b3c6d);
  bits = Math.imul(bits ^ (bits >>> 12), 0x297a2d39);
  return (bits ^ (bits >>> 15)) >>> 0;
}
