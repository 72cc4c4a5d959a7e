// The tabs beside the junction: conflicts, waits and the road.
"use strict";

// ── Conflicts ──

/** The conflict matrix, with the colour that each group shows now. */
function conflictTable({ site, colours }) {
  const { groups } = site;
  const head = groups.map((group, at) => `<th scope="col" data-group="${at}" title="${escaped(titleOf(group))}">${escaped(group.name)}</th>`);
  const cell = (row, column) => {
    if (row === column) return `<td class="self"></td>`;
    if (groups[row].conflicts.includes(column)) return `<td class="conflict">✕</td>`;
    const shared = [...groups[row].phases].filter(letter => letter !== "-" && groups[column].phases.includes(letter));
    return shared.length > 0 ? `<td class="together">${shared.join("")}</td>` : `<td class="apart">·</td>`;
  };
  const rows = groups.map((group, at) => `<tr><th scope="row">${escaped(group.name)}</th><td class="show" data-shows="${at}">${COLOUR_LETTERS[colours[at]]}</td>` +
    `<td class="phases">${group.phases}</td>${groups.map((_, other) => cell(at, other)).join("")}<td class="about">${escaped(group.label ?? "")}</td></tr>`);
  return `<p class="key"><b class="conflict">✕</b> conflict: never green together <b class="together">A</b> green together in these phases ` +
    `<b class="apart">·</b> no conflict and no phase together</p>` +
    `<table class="matrix" style="--cell: ${groups.length > 14 ? 20 : 28}px"><caption>Conflicts of the signal groups</caption>` +
    `<thead><tr><td></td><th scope="col">now</th><th scope="col">phases</th>${head.join("")}<td></td></tr></thead><tbody>${rows.join("")}</tbody></table>`;
}

// ── Waits ──

const stepsOf = list => list.reduce((sum, { steps }) => sum + steps, 0);

/** The wait of each phase and movement. Its parts are those of the text and must add up to the number of the library. */
function ownWaits(library, texts, { wanted, text }) {
  const told = library.waits(wanted);
  const waits = texts.waits(text).map(({ who, parts }) => {
    const counted = parts.map(part => ({ ...part, steps: stepsOf(part.terms) }));
    return { who, parts: counted, steps: stepsOf(counted) };
  });
  if (String(waits.map(wait => wait.steps)) !== String(told)) throw new Error("the parts of the waits do not add up to the library's numbers");
  return waits;
}

/** A row of what is made of other things: its name, its steps, and their names with their steps. */
function madeOf(name, steps, things) {
  const list = things.map(thing => `${escaped(thing.what ?? thing.name)} <b>${seconds(thing.steps)}</b>`).join(" + ");
  return `<tr><th scope="row">${escaped(name)}</th><td class="sum">${seconds(steps)}</td><td class="left">${list}</td></tr>`;
}

/** Two tables: the waits by their parts, and each part by its times. */
function ownTables(waits) {
  const parts = new Map(waits.flatMap(wait => wait.parts).map(part => [JSON.stringify(part), part]));
  const table = (kind, caption, names, rows) => `<table class="waits ${kind}"><caption>${caption}, in seconds</caption><thead><tr>` +
    `${names.map((name, at) => `<th scope="col"${at === 2 ? ` class="left"` : ""}>${name}</th>`).join("")}</tr></thead><tbody>${rows.join("")}</tbody></table>`;
  return [
    table("own", "The wait of each phase and movement", ["demand of", "wait", "made of"], waits.map(({ who, steps, parts }) => madeOf(who, steps, parts))),
    table("parts", "These parts", ["part", "at most", "made of"], Array.from(parts.values(), ({ what, steps, terms }) => madeOf(what, steps, terms))),
  ];
}

/** The bound with one time changed by so many steps, or null if the library refuses the bytes. */
function boundWith(library, bytes, offset, change) {
  const changed = bytes.slice();
  const time = twoBytes(changed, offset) + change;
  if (time < 0 || time > 65535) return null;
  changed[offset] = time & 255;
  changed[offset + 1] = time >> 8;
  const { number, value } = library.waitBound(changed);
  return number === 0 ? value : null;
}

/** How many steps the bound grows if a time grows by one, asked of the library. */
function weightOf(library, bytes, bound, offset) {
  const more = boundWith(library, bytes, offset, 1);
  if (more !== null) return more - bound;
  const less = boundWith(library, bytes, offset, -1);
  return less === null ? 0 : bound - less;
}

/** The times of a section by rows, each with its value, its weight in the bound and its part of it. */
function weighted(library, bytes, bound, kind, names, skip = 0) {
  const section = library.section(bytes, kind);
  if (!section) return [];
  const rows = [];
  for (let at = section.offset + skip; at < section.offset + section.length; at += 2 * names.length) {
    rows.push(names.map((name, column) => {
      const value = twoBytes(bytes, at + 2 * column);
      const weight = weightOf(library, bytes, bound, at + 2 * column);
      return { name, value, weight };
    }));
  }
  return rows;
}

/** The parts of the bound: start red, and of each phase its own times and those of its longest walk and clearance. */
function boundParts(library, site, bytes) {
  const bound = library.waitBound(bytes).value;
  const [start] = [...weighted(library, bytes, bound, 1, ["start red"], 2), ...weighted(library, bytes, bound, 8, ["start red"], 2)];
  const phases = weighted(library, bytes, bound, 2, PHASE_SETTINGS);
  const early = weighted(library, bytes, bound, 7, ["E"]);
  const movements = weighted(library, bytes, bound, 6, MOVEMENT_SETTINGS);
  const rows = site.phases.map((phase, at) => {
    const own = site.movements.map((movement, number) => ({ movement, times: movements[number] }))
      .filter(({ movement }) => site.groups[movement.group].phases === phase.letter);
    const longest = name => own.map(({ movement, times }) => ({ ...times.find(time => time.name === name), of: movement.name }))
      .find(time => time.weight > 0);
    const walks = MOVEMENT_SETTINGS.map(longest).filter(Boolean);
    const times = [...phases[at], ...(early[at] ?? []), ...walks];
    return { phase, times, sum: sumOf(times) };
  });
  const total = sumOf(start) + rows.reduce((sum, row) => sum + row.sum, 0);
  return { bound, start, rows, rest: bound - total };
}

const sumOf = times => times.reduce((sum, { value, weight }) => sum + value * weight, 0);

const BOUND_COLUMNS = ["L", "M", "X", "G", "E", "Y", "R", "W", "C1", "C2"];

/** A time with its factor, and whose it is if it is that of a walk. */
function timeCell(times, name) {
  const time = times.find(time => time.name === name);
  if (!time) return "<td></td>";
  if (time.weight === 0) return `<td class="faint" title="does not count">${seconds(time.value)}</td>`;
  const factor = time.weight > 1 ? `${time.weight} × ` : "";
  const of = time.of ? ` <small>${escaped(time.of)}</small>` : "";
  return `<td title="one step more adds ${time.weight} to the bound">${factor}${seconds(time.value)}${of}</td>`;
}

/** A row of the table: its times, and what they are of the bound. */
function partRow(name, times, part, bound) {
  const first = times.some(time => time.name === name) ? timeCell(times, name) + `<td colspan="${BOUND_COLUMNS.length - 1}"></td>` : null;
  return `<tr><th scope="row">${name}</th>${first ?? BOUND_COLUMNS.map(column => timeCell(times, column)).join("")}<td class="sum">${seconds(part)}</td>` +
    `<td class="bar"><meter min="0" max="${bound}" value="${part}" aria-label="${name}, share of the bound">${part}</meter></td></tr>`;
}

function waitsTable(library, texts, run) {
  const { bound, start, rows, rest } = boundParts(library, run.site, run.wanted);
  const [own, parts] = ownTables(ownWaits(library, texts, run));
  const head = ["phase", ...BOUND_COLUMNS, "part"].map(name => `<th scope="col">${name}</th>`).join("");
  const body = [
    partRow("start red", start, sumOf(start), bound),
    ...rows.map(({ phase, times, sum }) => partRow(phase.letter, times, sum, bound)),
    ...(rest === 0 ? [] : [partRow("other", [], rest, bound)]),
  ];
  return `<p class="lead">A demand that lasts has its minimum green, and a button its walk, in less than its wait. Nobody with a lock or a button waits longer than ` +
    `<b>${seconds(bound)} s</b> (${bound} steps), the bound of the whole site.</p><div class="columns"><div>${own}</div><div id="seen">${longestWaits(run)}</div><div>${parts}</div><div>` +
    `<table class="waits bound"><caption>The wait bound and its parts, in seconds</caption><thead><tr>${head}<td></td></tr></thead><tbody>${body.join("")}` +
    `<tr class="total"><th scope="row">bound</th><td colspan="${BOUND_COLUMNS.length}"></td><td class="sum">${seconds(bound)}</td><td></td></tr></tbody></table>` +
    `<p class="hint">Each factor is asked of the library: by how much the bound grows if this time is one step longer. Of several walks in a phase the longest counts. ` +
    `A time in grey does not count.</p></div></div>`;
}

/** For each phase and movement the longest wait seen since these times rule, from registered to met, beside its own wait. */
function longestWaits(run) {
  const row = ({ name, track, wait }) => {
    const waits = track.spans(1, run.now, run.now).filter(([first, , on]) => on && first >= run.ruledSince).map(([first, last]) => run.waited(first, last));
    const most = Math.max(0, ...waits);
    return `<tr><th scope="row">${escaped(name)}</th><td>${waits.length}</td><td>${waits.length ? seconds(most) : "–"}</td><td>${seconds(wait)}</td>` +
      `<td class="bar"><meter min="0" max="${wait}" value="${most}" aria-label="longest wait of ${escaped(name)} as a share of its own wait">${most}</meter></td></tr>`;
  };
  const head = ["demand of", "times", "longest, s", "its wait, s"].map(name => `<th scope="col">${name}</th>`).join("");
  const since = run.ruledSince > 0 ? `, since ${seconds(run.ruledSince)} s` : "";
  return `<table class="waits"><caption>Longest waits of this run${since}</caption><thead><tr>${head}<td></td></tr></thead><tbody>${run.waiters.map(row).join("")}</tbody></table>`;
}

// ── The road ──

const ROAD_POINTS = 240;

/** The queues of the streams of a site at rising numbers of steps. `done` gets them as they come; it may stop the work. */
async function roadQueues(library, { site, bytes }, done) {
  const points = Object.assign([], { whole: Math.max(1, site.steps) });
  for (let point = 0; point <= ROAD_POINTS; point++) {
    const steps = Math.round(site.steps * point / ROAD_POINTS);
    const { number, counts } = library.road(bytes, site.streams, steps);
    if (number !== 0) return done({ number, points: [] });
    points.push({ steps, counts });
    if (point % 4 === 0 || point === ROAD_POINTS) {
      if (done({ number, points, part: point / ROAD_POINTS }) === false) return;
      await new Promise(resolve => setTimeout(resolve));
    }
  }
}

const streamName = (site, { detector, group }) => `D${detector} → ${site.groups[group].name}`;

/** The queue of a stream over time as a filled line, in a box of a width and a height. */
function strip(points, at, most, width, height) {
  const x = steps => (width * steps / points.whole).toFixed(1);
  const y = queued => (height - 1 - (height - 3) * queued / most).toFixed(1);
  const line = points.map(({ steps, counts }) => `${x(steps)},${y(counts[at].queued)}`).join(" L");
  const end = x(points.at(-1).steps);
  return `<path d="M0,${height - 1} L${line} L${end},${height - 1} Z" fill="var(--queue)" opacity=".35"/>` +
    `<path d="M${line}" fill="none" stroke="var(--queue)" stroke-width="1.3" vector-effect="non-scaling-stroke"/>` +
    `<line x1="0" x2="${width}" y1="${height - 1}" y2="${height - 1}" stroke="var(--line)" vector-effect="non-scaling-stroke"/>`;
}

const longestOf = (points, at) => Math.max(...points.map(point => point.counts[at].queued));
const tallest = (site, points) => Math.max(4, ...site.streams.map((_, at) => longestOf(points, at)));

/** One row for each stream: its numbers, and its queue over time. All rows have the same scale. */
function roadTable(site, points) {
  const last = points.at(-1);
  const most = tallest(site, points);
  const rows = site.streams.map((stream, at) => {
    const { queued, gone } = last.counts[at];
    const name = escaped(streamName(site, stream));
    const told = `Queue of ${name} over time, at most ${longestOf(points, at)}`;
    const picture = `<svg viewBox="0 0 600 34" preserveAspectRatio="none" role="img" aria-label="${told}">${strip(points, at, most, 600, 34)}</svg>`;
    return `<tr title="${escaped(site.detectors[stream.detector]?.label ?? "")}"><th scope="row">${name}</th>` +
      `<td>${stream.rate}</td><td>${queued + gone}</td><td>${gone}</td><td>${queued}</td><td>${longestOf(points, at)}</td><td class="strip">${picture}</td></tr>`;
  });
  const head = ["stream", "veh/h", "arrived", "gone", "queued", "longest seen"].map(name => `<th scope="col">${name}</th>`).join("");
  return `<table class="waits road"><thead><tr>${head}<th scope="col" class="strip">queue over ${site.steps / 10} s, full height ${most} vehicles</th></tr></thead>` +
    `<tbody>${rows.join("")}</tbody></table>`;
}

/** The queues as a picture of its own, for saving. */
function roadPicture(site, points) {
  const most = tallest(site, points);
  const counts = site.streams.map((stream, at) => {
    const { queued, gone } = points.at(-1).counts[at];
    return `${stream.rate} veh/h, ${gone} gone, ${queued} queued, longest seen ${longestOf(points, at)}`;
  });
  const texts = [...counts.map(text => textWidth(text, 400, 12)), ...site.streams.map(stream => textWidth(streamName(site, stream), 600, 12))];
  const left = Math.ceil(Math.max(...texts)) + 30;
  const [width, height] = [left + 740, 30 + 56 * site.streams.length];
  const rows = site.streams.map((stream, at) =>
    `<g transform="translate(0 ${26 + 56 * at})"><text x="10" y="20" font-weight="600">${escaped(streamName(site, stream))}</text>` +
    `<text x="10" y="36">${counts[at]}</text><g transform="translate(${left} 0)">${strip(points, at, most, 720, 48)}</g></g>`);
  return `<svg xmlns="http://www.w3.org/2000/svg" viewBox="0 0 ${width} ${height}" width="${width}" height="${height}">` +
    `<style>text { font: 12px var(--sans); fill: var(--ink); }</style><rect width="${width}" height="${height}" fill="var(--panel)"/>` +
    `<text x="10" y="16">Queues over ${site.steps / 10} s, full height ${most} vehicles</text>${rows.join("")}</svg>`;
}
