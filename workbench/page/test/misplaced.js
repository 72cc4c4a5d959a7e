// Runs in the page: `misplaced()` lists what is cut off, covered or over something else, and `frame()` where the fixed parts are.
"use strict";

const SLACK = 1;          // a letter may reach so many pixels beyond its width
const LINE_SLACK = 3;     // and beyond the height of its line
const SELECT_ARROW = 16;  // the arrow of a select box

/** What scrolls up and down by design, and, if it shows a table, left and right too. */
const SCROLLS_DOWN = "#editor, #messages, aside, #lines, #view";
const SCROLLS_ACROSS = "#view:not(.junction)";

const CONTROLS = "header button, header select, #controls button, #controls select, #tabs button, #timebar select, #back, #text, #view .input";
const NEVER_WIDER = "header, #controls, #tabs, #timebar, #left, #right, #stage, aside, #messages, #lines, #view.junction";

const FIXED = "header > *, #status, #controls > *, #tabs, #tabs > button, #stage, #view, aside, #timeline, #timebar > *, #lines";

const all = (selector, root = document) => Array.from(root.querySelectorAll(selector));
const boxOf = one => one.getBoundingClientRect();
const WINDOW = { left: 0, top: 0, right: innerWidth, bottom: innerHeight };

const wide = (box, room, slack = SLACK) => box.left < room.left - slack || box.right > room.right + slack;
const tall = (box, room, slack = SLACK) => box.top < room.top - slack || box.bottom > room.bottom + slack;
const over = (a, b) => a.left < b.right - 1 && b.left < a.right - 1 && a.top < b.bottom - 1 && b.top < a.bottom - 1;
const quoted = text => `“${text.trim().slice(0, 40)}”`;

function misplaced() {
  return [...pageFaults(), ...controlFaults(), ...selectFaults(), ...textFaults(), ...junctionFaults(), ...timelineFaults()];
}

function pageFaults() {
  const root = document.documentElement;
  const page = root.scrollWidth > innerWidth || root.scrollHeight > innerHeight ? ["the page is larger than the window"] : [];
  const parts = all(NEVER_WIDER).filter(one => one.scrollWidth > one.clientWidth + SLACK);
  return [...page, ...parts.map(one => `${one.id || one.tagName} is wider than its place`)];
}

/** Whoever is seen at a place is the element or in it. */
function coveredAt(one, x, y) {
  const top = document.elementFromPoint(x, y);
  return one.contains(top) ? null : (top?.outerHTML ?? "nothing").slice(0, 60);
}

function controlFaults() {
  return all(CONTROLS).flatMap(one => {
    const box = boxOf(one);
    const name = one.id || one.getAttribute("aria-label") || one.tagName;
    if (wide(box, WINDOW, 0) || tall(box, WINDOW, 0)) return [`${name} is cut off`];
    const cover = coveredAt(one, box.x + box.width / 2, box.y + box.height / 2);
    return cover === null ? [] : [`${name} is covered by ${cover}`];
  });
}

function selectFaults() {
  const pen = document.createElement("canvas").getContext("2d");
  return all("select").flatMap(select => {
    const style = getComputedStyle(select);
    pen.font = style.font;
    const text = select.selectedOptions[0]?.textContent ?? "";
    const room = select.clientWidth - parseFloat(style.paddingLeft) - parseFloat(style.paddingRight) - SELECT_ARROW;
    return pen.measureText(text).width > room ? [`${select.id} is too narrow for ${quoted(text)}`] : [];
  });
}

// ── Texts ──

/** Each line of a text that is shown outside of pictures and of the sheet of the editor. */
function* shownLines() {
  const texts = document.createTreeWalker(document.body, NodeFilter.SHOW_TEXT);
  for (let node; (node = texts.nextNode());) {
    const element = node.parentElement;
    if (!node.data.trim() || element.closest("script, select, textarea, svg, #paint") || !element.checkVisibility({ visibilityProperty: true })) continue;
    const range = document.createRange();
    range.selectNodeContents(node);
    for (const box of range.getClientRects()) yield { element, box, text: node.data };
  }
}

const isInline = one => getComputedStyle(one).display === "inline";

/** The element whose box a text must stay in. */
function boxAround(element) {
  while (isInline(element)) element = element.parentElement;
  return element;
}

/** The box that an element with overflow shows of what is in it. */
function shownBox(one) {
  const box = boxOf(one);
  const [left, top] = [box.left + one.clientLeft, box.top + one.clientTop];
  return { left, top, right: left + one.clientWidth, bottom: top + one.clientHeight };
}

/** Where a line is cut, or null; `hidden` if it is scrolled out of sight. */
function cutOf({ element, box }) {
  let [across, down] = [true, true];
  const around = boxAround(element);
  if (wide(box, boxOf(around), SLACK + 1) || tall(box, boxOf(around), LINE_SLACK)) return "runs out of its box";
  for (let one = element; one !== document.documentElement; one = one.parentElement) {
    if (isInline(one) || getComputedStyle(one).overflow === "visible") continue;
    const room = shownBox(one);
    if (one.matches(SCROLLS_ACROSS)) across = false;
    if (one.matches(SCROLLS_DOWN)) down = false;
    if (across && wide(box, room) || down && tall(box, room, LINE_SLACK)) return "is cut off";
    if (wide(box, room) || tall(box, room)) return "hidden";
  }
  return wide(box, WINDOW, 0) || tall(box, WINDOW, 0) ? "is outside of the window" : null;
}

function textFaults() {
  const faults = [];
  for (const line of shownLines()) {
    const { element, box, text } = line;
    const around = boxAround(element);
    const place = around.id || around.tagName;
    const cut = cutOf(line);
    if (cut === "hidden") continue;
    if (cut !== null) faults.push(`${place} ${cut}: ${quoted(text)}`);
    else if (getComputedStyle(element).pointerEvents !== "none") {
      const covers = [box.left + 1, box.right - 1].map(x => coveredAt(around, x, (box.top + box.bottom) / 2));
      const cover = covers.find(cover => cover !== null);
      if (cover) faults.push(`${place} is covered: ${quoted(text)} by ${cover}`);
    }
  }
  return faults;
}

// ── Pictures ──

/** The texts of a picture that are shown, without titles. */
const pictureTexts = root => all("text", root).filter(text => text.checkVisibility({ visibilityProperty: true }) && text.textContent)
  .map(text => ({ text, box: boxOf(text), told: text.firstChild.data }));

/** Pairs of boxes of a list that are over each other. */
const pairsOver = list => list.flatMap((one, at) => list.slice(at + 1).filter(other => over(one.box, other.box)).map(other => `${one.told} is over ${other.told}`));

function junctionFaults() {
  const picture = document.querySelector("#view.junction svg");
  if (!picture) return [];
  const room = boxOf(picture);
  const heads = all("[data-group]", picture).map(head => ({ box: boxOf(head), told: `head ${head.dataset.group}` }));
  const inputs = all(".input", picture).map(input => ({ box: boxOf(input), told: input.getAttribute("aria-label") }));
  const texts = pictureTexts(picture);
  const alone = texts.filter(({ text }) => !text.closest("[data-group], .input"));
  const outside = [...heads, ...inputs, ...texts].filter(({ box }) => wide(box, room) || tall(box, room)).map(({ told }) => `${told} leaves the junction`);
  const view = shownBox(document.querySelector("#view"));
  const cut = wide(room, view) || tall(room, view) ? ["the junction is larger than its view"] : [];
  return [...cut, ...outside, ...pairsOver([...heads, ...alone])];
}

/** Bars and lines of the timeline that are not the lines of the axis. */
const timelineBars = picture => all("rect, line", picture).filter(one => !one.closest("defs")).map(one => ({ one, box: boxOf(one) })).filter(({ box }) => box.height < 20);

/** A text stands in its own bar, if it is that of an interval, or else clear of all bars; and clear of all other texts. */
function timelineFaults() {
  const picture = document.querySelector("#rows svg");
  if (!picture) return [];
  const room = boxOf(picture);
  const texts = pictureTexts(picture);
  const bars = timelineBars(picture);
  const crosses = (text, bar) => {
    const middle = (bar.top + bar.bottom) / 2;
    return text.left < bar.right - 1 && bar.left < text.right - 1 && text.top < middle && middle < text.bottom;
  };
  const faults = pairsOver(texts);
  for (const { text, box, told } of texts) {
    const own = text.previousElementSibling;
    const band = own?.tagName === "rect" && text.classList.length === 0 ? own : null;
    if (wide(box, room) || tall(box, room)) faults.push(`${quoted(told)} leaves the timeline`);
    if (band && wide(box, boxOf(band))) faults.push(`${quoted(told)} is wider than its bar`);
    if (bars.some(({ one, box: bar }) => one !== band && crosses(box, bar))) faults.push(`${quoted(told)} runs into a bar`);
  }
  return faults;
}

// ── What does not move ──

/** The places of everything that must stay where it is while a site runs. */
function frame() {
  const round = box => [box.left, box.top, box.width, box.height].map(Math.round).join(" ");
  return all(FIXED).map(one => `${one.id || one.className || one.tagName}: ${round(boxOf(one))}`);
}
