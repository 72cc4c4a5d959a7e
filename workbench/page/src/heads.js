// Texts, signal heads, detectors and buttons as parts of a picture. A part is drawn once; later steps only set
// `data-colour` and classes, and the style of the picture does the rest.
"use strict";

// ── Texts ──

const pen = document.createElement("canvas").getContext("2d");
const rootStyle = getComputedStyle(document.documentElement);
const textWidths = new Map();
const MOST_WIDTHS = 10000;

/** The width of a text of a picture in the font that the reader has, measured once for each text and font. */
function textWidth(text, weight = 400, size = 10) {
  const font = `${weight} ${size}px ${rootStyle.getPropertyValue("--sans")}`;
  const key = `${font} ${text}`;
  if (!textWidths.has(key)) {
    if (textWidths.size === MOST_WIDTHS) textWidths.clear();
    pen.font = font;
    textWidths.set(key, pen.measureText(text).width);
  }
  return textWidths.get(key);
}

/** The text, or as much of its beginning as there is room for, with dots behind it. */
function fitted(text, room, weight = 400) {
  if (textWidth(text, weight) <= room) return text;
  const letters = Array.from(text);
  const beginning = count => letters.slice(0, count).join("") + "…";
  let [fits, over] = [0, letters.length];
  while (over - fits > 1) {
    const middle = (fits + over) >> 1;
    if (textWidth(beginning(middle), weight) <= room) fits = middle;
    else over = middle;
  }
  return beginning(fits);
}

/** A text as a part of a picture, shortened to its room. The whole text is its title then. */
function textIn(room, text, attributes, weight = 400) {
  const shown = fitted(text, room, weight);
  const title = shown === text ? "" : `<title>${escaped(text)}</title>`;
  return `<text ${attributes}>${escaped(shown)}${title}</text>`;
}

// ── Heads, detectors and buttons ──

const HEAD = { width: 22, height: 54 };
const WALKER = { width: 22, height: 40 };
const NAME = 14;
const MOST_NAME = 60;

const sizeOf = group => group.mark === "pedestrian" ? WALKER : HEAD;

/** The style goes into the picture itself, so that a saved picture has it too. */
const PICTURE_STYLE = `
  text { font: 10px var(--sans); fill: var(--ink); }
  .name { font-weight: 600; text-anchor: middle; }
  .faint { fill: var(--faint); }
  .box { fill: var(--head); stroke: var(--head-edge); }
  .lamp { fill: var(--unlit); }
  .sign { font: 700 10px var(--sans); text-anchor: middle; visibility: hidden; fill: #111; }
  [data-colour=R] .red .lamp, [data-colour=F] .red .lamp { fill: var(--red); }
  [data-colour=Y] .yellow .lamp { fill: var(--yellow); }
  [data-colour=G] .green .lamp { fill: var(--green); }
  [data-colour=R] .red .sign, [data-colour=F] .red .sign, [data-colour=Y] .yellow .sign, [data-colour=G] .green .sign { visibility: visible; }
  .figure { color: #626b76; fill: currentColor; }
  .limbs { fill: none; stroke: currentColor; stroke-width: 1.9; stroke-linecap: round; stroke-linejoin: round; }
  [data-colour=R] .red .figure, [data-colour=F] .red .figure { color: #fff; }
  [data-colour=G] .green .figure { color: #111; }
  .flashing { visibility: hidden; font: 700 10px var(--sans); text-anchor: middle; fill: #fff; }
  [data-colour=F] .flashing { visibility: visible; } [data-colour=F] .green .figure { visibility: hidden; }
  [data-colour=F] .red { animation: flash 1s steps(2, jump-none) infinite; }
  @keyframes flash { from { opacity: 1; } to { opacity: .25; } }
  @media (prefers-reduced-motion: reduce) { [data-colour=F] .red { animation: none; } }
  .input { cursor: pointer; outline: none; }
  .input rect, .input circle { fill: var(--panel); stroke: var(--faint); stroke-width: 1.2; }
  .input text { text-anchor: middle; font-size: 9px; font-weight: 600; }
  .input:hover rect, .input:hover circle { stroke: var(--accent); stroke-width: 2; }
  .input:focus-visible rect, .input:focus-visible circle { stroke: var(--accent); stroke-width: 3; }
  .input.on rect, .input.on circle { fill: var(--accent); stroke: var(--accent); }
  .input.on text { fill: var(--panel); }
  .input.armed rect, .input.armed circle { stroke: var(--accent); stroke-width: 2; stroke-dasharray: 3 2; }
  .input[aria-pressed=true] rect, .input[aria-pressed=true] circle { stroke: var(--ink); stroke-width: 2.4; }
`;

const ARROW_SIGNS = { left: "↰", straight: "↑", right: "↱", "u-turn": "↶" };
const arrowsOf = group => group.arrows.length > 0 ? " " + group.arrows.map(arrow => ARROW_SIGNS[arrow]).join("") : "";

/** The name below a head, with the arrows of its group. */
const nameOf = group => fitted(group.name, MOST_NAME, 600) + arrowsOf(group);

/** How wide a head is with its name. */
const widthOf = group => Math.max(sizeOf(group).width, textWidth(nameOf(group), 600));

/** A lamp with its letter: colours are told apart by place and letter too. */
const lamp = (colour, letter, x, y) =>
  `<g class="${colour}"><circle class="lamp" cx="${x}" cy="${y}" r="7"/><text class="sign" x="${x}" y="${y + 3.6}">${letter}</text></g>`;

const HEAD_OF_FIGURE = `<circle cy="-5.6" r="1.7"/>`;
const STANDING = `${HEAD_OF_FIGURE}<path d="M-2.6,-3 h5.2 v5 h-0.9 v5 h-1.4 v-4.4 h-0.6 v4.4 h-1.4 v-5 h-0.9 Z"/>`;
const WALKING = `${HEAD_OF_FIGURE}<path class="limbs" d="M0,-2.6 L-0.4,1.6 L-3,6.6 M-0.4,1.6 L1.8,3.6 L2.6,6.6 M-3.4,1 L0,-2.4 L3.2,0.6"/>`;

/** A lamp of a pedestrian head: a standing or a walking figure. */
const walkerLamp = (colour, figure, x, y) => `<g class="${colour}"><rect class="lamp" x="${x - 8.5}" y="${y - 8.5}" width="17" height="17" rx="3"/>` +
  `<g class="figure" transform="translate(${x} ${y})">${figure}</g></g>`;

function titleOf(group) {
  const label = group.label ? `: ${group.label}` : "";
  return `${group.name}, ${group.mark}, phases ${group.phases}${label}`;
}

/** The head of a group with its top left corner at a place. Its name is below it. */
function headOf(group, at, x, y) {
  const { width, height } = sizeOf(group);
  const middle = width / 2;
  const lamps = group.mark === "pedestrian"
    ? walkerLamp("red", STANDING, middle, 11) + walkerLamp("green", WALKING, middle, 29) + `<text class="flashing" x="${middle}" y="32.6">F</text>`
    : lamp("red", "R", middle, 10) + lamp("yellow", "Y", middle, 27) + lamp("green", "G", middle, 44);
  const title = escaped(titleOf(group));
  return `<g role="img" aria-label="${title}: red" data-name="${title}" data-group="${at}" data-colour="R" transform="translate(${x} ${y})"><title>${title}</title>` +
    `<rect class="box" width="${width}" height="${height}" rx="5"/>${lamps}` +
    `<text class="name" x="${middle}" y="${height + 11}">${escaped(nameOf(group))}</text></g>`;
}

/** A detector or a button that can be pressed. `shape` is drawn around its middle. */
function inputAt(bit, name, sign, x, y, shape) {
  return `<g class="input" role="button" tabindex="0" aria-pressed="false" data-bit="${bit}" aria-label="${escaped(name)}" ` +
    `transform="translate(${x} ${y})"><title>${escaped(name)}</title>${shape}<text y="3.3">${sign}</text></g>`;
}

const detectorName = (detector, at) => `Detector ${at}, phase ${detector.phase}, ${detector.call}` +
  `${detector.extends ? " extending" : ""}${detector.label ? `: ${detector.label}` : ""}`;

const buttonName = (movement, at) => `Button ${at} of ${movement.name}${movement.label ? `: ${movement.label}` : ""}`;

function detectorAt(detector, at, x, y, turned = 0, wide = 22, long = 16) {
  const shape = `<rect x="${-wide / 2}" y="${-long / 2}" width="${wide}" height="${long}" rx="3" transform="rotate(${turned})"/>`;
  return inputAt(at, detectorName(detector, at), at, x, y, shape);
}

function buttonAt(movement, at, x, y) {
  return inputAt(FIRST_BUTTON + at, buttonName(movement, at), at, x, y, `<circle r="9"/>`);
}
