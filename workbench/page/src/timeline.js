// The timeline: intervals as a band, every group in its colours, each demand as a bar from registered to met, and
// detectors and buttons as marks.
"use strict";

const AXIS = 20;
const ROWS_APART = 5;

const TIMELINE_STYLE = `
  text { font: 10px var(--sans); fill: var(--ink); }
  .label { text-anchor: end; font-weight: 600; }
  .faint { fill: var(--faint); }
  .axis { text-anchor: middle; fill: var(--faint); }
`;

/** The rows from top to bottom: label, what it is, its track and how a span of it is drawn. `first` begins a new kind. */
function timelineRows(run) {
  const { site } = run;
  const rows = [{ label: "phase", about: "interval", track: run.position, draw: drawInterval, first: true }];
  const add = (list, draw, label, about) => list.forEach((track, at) =>
    rows.push({ label: label(at), about: about(at) ?? "", track, draw, first: at === 0 }));
  const locking = site.phases.map(({ letter }) => site.detectors.some(detector => detector.phase === letter && detector.call === "locking"));
  add(run.groups, drawColour, at => site.groups[at].name, at => site.groups[at].label);
  const demands = [
    ...run.locks.map((track, at) => ({ track, label: site.phases[at].letter, about: "demand", shown: locking[at] })),
    ...run.presses.map((track, at) => ({ track, label: site.movements[at].name, about: "demand", shown: true })),
  ].filter(({ shown }) => shown);
  add(demands.map(({ track }) => track), drawDemand, at => demands[at].label, at => demands[at].about);
  add(run.buttons, drawMark, at => `B${at}`, at => `${site.movements[at].name} button`);
  add(run.detectors, drawMark, at => `D${at}`, at => `${site.detectors[at].phase} ${site.detectors[at].label ?? ""}`);
  return rows;
}

const bar = (x, y, width, height, fill) => `<rect x="${x.toFixed(2)}" y="${y}" width="${Math.max(width, 1).toFixed(2)}" height="${height}" fill="${fill}"/>`;

/** The bar of an interval, with its name or its letter if there is room for it. */
function drawInterval(value, x, y, width, row) {
  const [phase, interval] = [value >> 3, value & 7];
  const names = [INTERVAL_NAMES[interval], INTERVAL_LETTERS[interval]].map(name => `${letterOf(phase)} ${name}`);
  const text = names.find(name => textWidth(name) <= width - 3.5);
  return bar(x, y + 1, width - 0.7, row - 2, `var(--interval-${interval})`) + (text ? `<text x="${x + 2}" y="${y + row / 2 + 3.6}">${text}</text>` : "");
}

/** Green is a full bar, yellow a hatched one, red a thin line, flashing red a broken line. */
function drawColour(value, x, y, width, row) {
  const middle = y + row / 2;
  const line = how => `<line x1="${x}" x2="${x + width}" y1="${middle}" y2="${middle}" stroke="var(--red)" ${how}/>`;
  switch (COLOUR_LETTERS[value]) {
    case "G": return bar(x, y + 2, width, row - 4, "var(--green)");
    case "Y": return bar(x, y + 2, width, row - 4, "var(--yellow)") + bar(x, y + 2, width, row - 4, "url(#hatch)");
    case "F": return line(`stroke-width="${row - 8}" stroke-dasharray="3 3"`);
    default: return line(`stroke-width="1.6"`);
  }
}

const drawMark = (value, x, y, width, row) => value ? bar(x, y + 3, Math.max(width, 1.5), row - 6, "var(--accent)") : "";

/** The bar of a demand, and behind its end how long it waited, if there is room for it. */
function drawDemand(value, x, y, width, row, { waited, room }) {
  if (!value) return "";
  const text = seconds(waited);
  return bar(x, y + 3.5, width, row - 7, "var(--demand)") +
    (textWidth(text) <= room - 5 ? `<text class="faint" x="${x + width + 3}" y="${y + row / 2 + 3.6}">${text}</text>` : "");
}

/** The axis: a line and its second every so many seconds, so that labels stay apart. */
function axisOf(from, to, left, scale, height) {
  const apart = textWidth(`${Math.ceil(to / 10)} s`) + 16;
  const every = [1, 2, 5, 10, 20, 30, 60, 120, 300, 600, 1800].find(every => every * 10 * scale >= apart) ?? 3600;
  let lines = "";
  for (let second = Math.ceil(from / 10 / every) * every; second * 10 <= to; second += every) {
    const x = left + (second * 10 - from) * scale;
    lines += `<line x1="${x}" x2="${x}" y1="${AXIS - 4}" y2="${height}" stroke="var(--line)"/><text class="axis" x="${x}" y="12">${second} s</text>`;
  }
  return lines;
}

/** Where labels end, where the bars begin and where they end. Behind them is room for how long a demand has waited. */
function timelineColumns(rows, width) {
  const widest = (field, weight) => Math.max(...rows.map(row => textWidth(row[field], weight)));
  const labels = Math.min(8 + widest("label", 600), width / 8);
  const left = Math.min(labels + 6 + widest("about", 400) + 10, width / 4);
  return { labels, left, right: width - textWidth("0000.0") - 6 };
}

/** The spans of a row that are in sight. A demand has room behind its bar up to the next bar, two spans on, or to the edge of the picture. */
function rowSpans({ track, draw }, y, { run, from, to, left, scale, row, width }) {
  const xOf = step => left + (step - from) * scale;
  const spans = track.spans(from + 1, Math.min(to, run.now), run.now);
  return spans.map(([first, end, value], at) => {
    const [start, stop] = [Math.max(first - 1, from), Math.min(end, to)];
    const next = spans[at + 2] ? xOf(spans[at + 2][0] - 1) : width;
    return draw(value, xOf(start), y, (stop - start) * scale, row, { waited: run.waited(first, end), room: next - xOf(stop) });
  }).join("");
}

/** The label of a row and what it is. */
const rowLabel = ({ label, about }, { labels, left }, y) =>
  textIn(labels - 8, label, `class="label" x="${labels}" y="${y}"`, 600) + textIn(left - labels - 12, about, `class="faint" x="${labels + 6}" y="${y}"`);

/** The timeline of the steps behind `from` up to `to` as SVG text. Rows fill the `room` if it is enough. */
function timelinePicture(run, { from, to, width, room }) {
  const rows = timelineRows(run);
  const columns = timelineColumns(rows, width);
  const { left, right } = columns;
  const kinds = rows.filter(row => row.first).length;
  const row = Math.max(12, Math.min(20, Math.floor((room - AXIS - kinds * ROWS_APART) / rows.length)));
  const scale = (right - left) / (to - from);
  const drawn = [];
  let y = AXIS - ROWS_APART;
  for (const one of rows) {
    if (one.first) y += ROWS_APART;
    drawn.push(rowLabel(one, columns, y + row / 2 + 3.6) + rowSpans(one, y, { run, from, to, left, scale, row, width }));
    y += row;
  }
  const present = left + (run.now - from) * scale;
  const now = run.now <= to ? `<line x1="${present}" x2="${present}" y1="${AXIS - 6}" y2="${y}" stroke="var(--ink)"/>` : "";
  const height = y + 4;
  return `<svg xmlns="http://www.w3.org/2000/svg" viewBox="0 0 ${width} ${height}" width="${width}" height="${height}" role="img" aria-label="Timeline from ${seconds(from)} s to ${seconds(to)} s">` +
    `<style>${TIMELINE_STYLE}</style>` +
    `<defs><pattern id="hatch" width="4" height="4" patternUnits="userSpaceOnUse" patternTransform="rotate(45)"><rect width="1.4" height="4" fill="#0008"/></pattern></defs>` +
    `${axisOf(from, to, left, scale, y)}${drawn.join("")}${now}</svg>`;
}
