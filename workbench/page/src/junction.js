// The picture of the junction: a plan if the text says where things are, else a grid by phase.
"use strict";

/** The picture as SVG text. `room` is the width and height that it may fill. */
function junctionPicture(site, room) {
  const placed = site.approaches.some(approach => approach.bearing !== null) &&
    site.groups.some(group => bearingOf(site, group) !== null);
  const { body, left, top, width, height } = placed ? planOf(site) : gridOf(site, room);
  const scale = Math.min(2, room.width / width, room.height / height);
  return `<svg xmlns="http://www.w3.org/2000/svg" viewBox="${left} ${top} ${width} ${height}" ` +
    `width="${width * scale}" height="${height * scale}" role="group" aria-label="The junction: heads, detectors and buttons">` +
    `<style>${PICTURE_STYLE}</style>${body}</svg>`;
}

/** The bearing of the approach of a group, detector or button, or null. */
function bearingOf(site, thing) {
  return site.approaches.find(approach => approach.name === thing.approach)?.bearing ?? null;
}

// ── The grid ──

const COLUMN_GAP = 8;
const LEAST_COLUMN = 56;
const HEADS_ACROSS = [1, 2, 3, 4, 5];
const GRID_HEIGHTS = [120, 150, 180, 210, 240, 280, 320, 380, 440, 520];

/** A column for each phase, with the heads, detectors and buttons that belong to it: the grid that can be drawn largest. */
function gridOf(site, room) {
  const cell = cellOf(site.groups);
  const drawn = (phase, column) => HEADS_ACROSS.map(across => drawColumn(phase, column, Math.max(LEAST_COLUMN, 10 + across * cell), cell));
  const columns = site.phases.map(phase => drawn(phase, columnOf(site, phase.letter)));
  const rest = columnOf(site, "-");
  if (rest.groups.length > 0) columns.push(drawn({ letter: "–", label: "no phase" }, rest));
  const grids = GRID_HEIGHTS.map(height => columns.map(drawn => drawn.find(column => column.height <= height) ?? drawn.at(-1)));
  const wide = grid => grid.reduce((sum, column) => sum + column.width + COLUMN_GAP, -COLUMN_GAP);
  const tall = grid => Math.max(...grid.map(column => column.height));
  const scaleOf = grid => Math.min(2, room.width / wide(grid), room.height / tall(grid));
  const best = grids.reduce((best, grid) => scaleOf(grid) > scaleOf(best) ? grid : best);
  return { ...besideEachOther(best, tall(best)), left: 0, top: 0, width: wide(best), height: tall(best) };
}

/** The width of a head in a column: its name and its phases stay apart from those beside it. */
const cellOf = groups => Math.max(37, ...groups.map(group => Math.max(widthOf(group), textWidth(group.phases)) + 5));

function besideEachOther(columns, height) {
  let left = 0;
  const body = columns.map(({ body, width }, at) => {
    left += width + COLUMN_GAP;
    return `<g transform="translate(${left - width - COLUMN_GAP} 0)"><rect class="column" data-phase="${at}" x="1" y="1" width="${width - 2}" height="${height - 2}" rx="6"/>${body}</g>`;
  });
  const style = "<style>.column { fill: none; stroke: var(--line); } .column.now { stroke: var(--accent); stroke-width: 2; }</style>";
  return { body: style + body.join("") };
}

/** What stands in the column of a phase. A group of several phases stands in its first. */
function columnOf(site, letter) {
  const numbered = list => list.map((one, at) => ({ one, at }));
  const first = group => group.phases[0] === letter;
  return {
    groups: numbered(site.groups).filter(({ one }) => first(one)),
    detectors: numbered(site.detectors).filter(({ one }) => one.phase === letter),
    buttons: numbered(site.movements).filter(({ one }) => first(site.groups[one.group])),
  };
}

function drawColumn(phase, { groups, detectors, buttons }, width, cell) {
  let body = `<text class="name" x="14" y="17" style="font-size:13px">${phase.letter}</text>` + textIn(width - 30, phase.label ?? "", `class="faint" x="26" y="17"`);
  let top = 28;
  const place = (list, cell, draw) => {
    const across = Math.max(1, Math.min(list.length, Math.floor((width - 8) / cell.width)));
    const left = (width - across * cell.width) / 2;
    list.forEach((item, at) => {
      body += draw(item, left + (at % across + 0.5) * cell.width, top + Math.floor(at / across) * cell.height);
    });
    top += Math.ceil(list.length / across) * cell.height;
  };
  const tall = Math.max(WALKER.height, ...groups.map(({ one }) => sizeOf(one).height));
  const several = groups.some(({ one }) => one.phases.length > 1);
  place(groups, { width: cell, height: tall + (several ? 30 : 18) }, ({ one, at }, x, y) =>
    headOf(one, at, x - HEAD.width / 2, y + tall - sizeOf(one).height) +
    (one.phases.length > 1 ? `<text class="faint" text-anchor="middle" x="${x}" y="${y + tall + 23}">${one.phases}</text>` : ""));
  top += 4;
  place(detectors, { width: 27, height: 21 }, ({ one, at }, x, y) => detectorAt(one, at, x, y + 10));
  place(buttons, { width: 27, height: 23 }, ({ one, at }, x, y) => buttonAt(one, at, x, y + 11));
  return { body, width, height: top + 5 };
}

// ── The plan ──

const LANE = 18;
const CORNER = 14;
const CROSSING = 18;
const MOST_ARM_NAME = 120;

const PLAN_STYLE = `
  .road { fill: var(--road); }
  .stop { stroke: var(--mark); stroke-width: 3; }
  .dash { stroke: var(--mark); stroke-width: 1; stroke-dasharray: 6 6; }
  .zebra { stroke: var(--mark); stroke-width: 12; stroke-dasharray: 4 4; }
  .way { fill: none; stroke: var(--mark); stroke-width: 1.6; stroke-linecap: round; stroke-linejoin: round; }
  .way[data-shown=G] { stroke: var(--green); stroke-width: 2.2; }
  .way[data-shown=Y] { stroke: var(--yellow); stroke-width: 2.2; }
  .arm { text-anchor: middle; fill: var(--faint); }
`;

/** An arm: directions outward and to the right of outward, and its sizes. */
function armOf(site, approach) {
  const angle = approach.bearing * Math.PI / 180;
  const things = [...site.groups, ...site.detectors].filter(thing => thing.approach === approach.name);
  const lanes = Math.max(approach.lanes ?? 1, ...things.map(thing => thing.lanes?.[1] ?? 1));
  const out = [Math.sin(angle), -Math.cos(angle)];
  return {
    approach, lanes, out, angle, half: lanes * LANE,
    right: [Math.cos(angle), Math.sin(angle)],
    side: site.traffic === "left" ? 1 : -1,
    length: Math.abs(out[0]) > 0.7 ? 190 : 118,
  };
}

/** How far from the middle the kerbs of an arm begin: beyond the arms beside it. */
function beginOf(arm, arms) {
  const beside = arms.map(other => ({ other, turn: Math.abs(Math.sin(other.angle - arm.angle)) })).filter(({ turn }) => turn > 0.3);
  return Math.max(arm.half / 2, ...beside.map(({ other, turn }) => other.half / turn)) + CORNER;
}

/** The point of an arm at a distance from the middle; the lanes that lead in have a positive side. */
const pointOf = (arm, u, v) => [0, 1].map(axis => Number((arm.out[axis] * u + arm.right[axis] * v * arm.side).toFixed(2)));

/** The sides of the lanes from first to last; lane 1 is at the kerb. */
function sideOf(arm, lanes) {
  const [first, last] = lanes ?? [1, arm.lanes];
  return { middle: (arm.lanes - (first + last) / 2 + 0.5) * LANE, wide: (last - first + 1) * LANE };
}

function planOf(site) {
  const arms = site.approaches.filter(approach => approach.bearing !== null).map(approach => armOf(site, approach))
    .sort((one, two) => one.approach.bearing - two.approach.bearing);
  for (const arm of arms) arm.begin = beginOf(arm, arms);
  const parts = { road: "", marks: "", things: "", boxes: [], arms };
  const shown = { groups: new Set(), detectors: new Set(), buttons: new Set() };
  for (const arm of arms) drawArm(site, arm, parts, shown);
  for (const arm of arms) drawHeads(site, arm, parts, shown);
  const [[left, top], [right, bottom]] = edgesOf(arms, parts.boxes);
  const tray = trayOf(site, shown, right, top);
  return {
    body: `<style>${PLAN_STYLE}</style>${parts.road}<path class="road" d="${middleOf(arms)}"/>${parts.marks}${parts.things}${tray.body}`,
    left, top, width: right - left + tray.width, height: Math.max(bottom - top, tray.height),
  };
}

/** The least and the greatest coordinates of the arms, the heads and the names of the arms. */
function edgesOf(arms, boxes) {
  const ends = arms.flatMap(arm => [-arm.half, arm.half].map(v => pointOf(arm, arm.begin + arm.length, v)));
  const points = [...ends, ...boxes.flatMap(({ at, size }) => [at, at.map((value, axis) => value + size[axis])])];
  const along = axis => points.map(point => point[axis]);
  return [[0, 1].map(axis => Math.min(...along(axis)) - 2), [0, 1].map(axis => Math.max(...along(axis)) + 2)];
}

/** Offsets away from the road and along it, the nearest first. */
const OFFSETS = Array.from({ length: 900 }, (_, at) => [at % 30, Math.floor(at / 30)]).sort((one, two) => one[0] + one[1] - two[0] - two[1]);

/** A place for a head with its name, or for the name of an arm: as wanted, or the nearest one that covers no other and no road. */
function freePlace(parts, wanted, size, away, along) {
  const covers = (at, box) => [0, 1].every(axis => at[axis] < box.at[axis] + box.size[axis] && box.at[axis] < at[axis] + size[axis]);
  const points = [0, 0.5, 1].flatMap(x => [0, 0.5, 1].map(y => [x * size[0], y * size[1]]));
  const onRoad = (at, arm) => points.some(([x, y]) => {
    const along = (at[0] + x) * arm.out[0] + (at[1] + y) * arm.out[1];
    const beside = (at[0] + x) * arm.right[0] + (at[1] + y) * arm.right[1];
    return along > 0 && Math.abs(beside) < arm.half + 3;
  });
  const places = OFFSETS.map(([far, on]) => wanted.map((value, axis) => value + 5 * (far * away[axis] + on * along[axis])));
  const at = places.find(at => !parts.boxes.some(box => covers(at, box)) && !parts.arms.some(arm => onRoad(at, arm))) ?? wanted;
  parts.boxes.push({ at, size });
  return at;
}

/** The edge of the middle: round corners from the right kerb of an arm to the left kerb of the next one. */
function middleOf(arms) {
  const kerb = (arm, side) => pointOf(arm, arm.begin, side * arm.half * arm.side);
  const pieces = arms.map((arm, at) => {
    const next = arms[(at + 1) % arms.length];
    const [from, to] = [kerb(arm, 1), kerb(next, -1)];
    const turn = arm.out[0] * next.out[1] - arm.out[1] * next.out[0];
    const far = ((to[0] - from[0]) * next.out[1] - (to[1] - from[1]) * next.out[0]) / turn;
    const corner = Math.abs(turn) < 0.2 ? from : [from[0] + arm.out[0] * far, from[1] + arm.out[1] * far];
    return `L${kerb(arm, -1)} L${from} Q${corner.map(Math.round)} ${to}`;
  });
  return `M${kerb(arms[0], -1)} ${pieces.join(" ")} Z`;
}

function drawArm(site, arm, parts, shown) {
  const line = (u1, v1, u2, v2, kind) => {
    const [[x1, y1], [x2, y2]] = [pointOf(arm, u1, v1), pointOf(arm, u2, v2)];
    return `<line class="${kind}" x1="${x1}" y1="${y1}" x2="${x2}" y2="${y2}"/>`;
  };
  const { begin, half } = arm;
  const walkers = numberedOf(site.groups, arm).filter(({ one }) => one.mark === "pedestrian");
  const stop = arm.stop = begin + 6 + CROSSING * walkers.length;
  drawDetectors(site, arm, parts, shown);
  const end = begin + arm.length;
  const kerbs = [[begin - 1, -half], [begin - 1, half], [end, half], [end, -half]];
  parts.road += `<polygon class="road" points="${kerbs.map(([u, v]) => pointOf(arm, u, v)).join(" ")}"/>`;
  parts.marks += line(stop, 1, stop, half - 1, "stop") + line(stop, 0, end, 0, "dash");
  for (let lane = 1; lane < arm.lanes; lane++) parts.marks += line(stop, lane * LANE, end, lane * LANE, "dash");
  walkers.forEach(({ one, at }, index) => {
    const u = begin + CROSSING * (index + 0.5);
    parts.marks += line(u, -half + 2, u, half - 2, "zebra");
    drawWalker(site, arm, one, at, u, parts, shown);
  });
  drawArmName(arm, end, parts);
}

/** The name of an arm stands at its end, beyond the lanes that lead out. */
function drawArmName(arm, end, parts) {
  const { name } = arm.approach;
  const size = [Math.min(textWidth(name), MOST_ARM_NAME) + 4, 12];
  const reach = direction => (Math.abs(direction[0]) * size[0] + Math.abs(direction[1]) * size[1]) / 2;
  const middle = pointOf(arm, end - reach(arm.out), -arm.half - 3 - reach(arm.right));
  const away = arm.right.map(part => -part * arm.side);
  const [x, y] = freePlace(parts, middle.map((value, axis) => value - size[axis] / 2), size, away, arm.out);
  parts.things += textIn(MOST_ARM_NAME, name, `class="arm" x="${x + size[0] / 2}" y="${y + 9}"`);
}

const numberedOf = (list, arm) => list.map((one, at) => ({ one, at })).filter(({ one }) => one.approach === arm.approach.name);

/** Arrows of a lane, as seen by a driver who goes up. */
const WAYS = {
  straight: "M0,7 V-8 M-3,-5 L0,-8 L3,-5",
  left: "M0,7 V1 Q0,-2 -4,-2 M-3,-5 L-6,-2 L-3,1",
  right: "M0,7 V1 Q0,-2 4,-2 M3,-5 L6,-2 L3,1",
  "u-turn": "M2,7 V-3 Q2,-6 -1,-6 Q-4,-6 -4,-3 V1 M-7,-2 L-4,1 L-1,-2",
};

/** The heads of an arm stand in a row beside its kerb, from the road outwards. */
function drawHeads(site, arm, parts, shown) {
  const heads = numberedOf(site.groups, arm).filter(({ one }) => one.mark !== "pedestrian");
  const size = [Math.max(HEAD.width + 18, ...heads.map(({ one }) => widthOf(one) + 4)), HEAD.height + NAME];
  const away = arm.right.map(part => part * arm.side);
  const [x, y] = pointOf(arm, arm.stop + 8, arm.half + 4);
  heads.forEach(({ one, at }, index) => {
    const wanted = [x < 0 ? x - size[0] * (index + 1) : x + size[0] * index, y < 0 ? y - size[1] : y];
    const place = freePlace(parts, wanted, size, away, arm.out);
    parts.things += headOf(one, at, place[0] + (size[0] - HEAD.width) / 2, place[1]);
    shown.groups.add(at);
    drawWays(arm, one, at, parts);
  });
}

/** The arrows of a group on each of its lanes. */
function drawWays(arm, { lanes, arrows }, at, parts) {
  for (let lane = lanes?.[0] ?? 1; lane <= (lanes?.[1] ?? 0); lane++) {
    const [x, y] = pointOf(arm, arm.stop + 16, sideOf(arm, [lane, lane]).middle);
    parts.marks += `<path class="way" data-way="${at}" transform="translate(${x} ${y}) rotate(${arm.approach.bearing + 180})" d="${arrows.map(arrow => WAYS[arrow]).join(" ")}"/>`;
  }
}

/** The head of a crossing stands at its end beyond the lanes that lead out, its button is drawn in its middle. */
function drawWalker(site, arm, group, at, u, parts, shown) {
  const size = [widthOf(group), WALKER.height + NAME];
  const away = arm.right.map(part => -part * arm.side);
  const far = arm.half + 5 + Math.abs(away[0]) * size[0] / 2 + Math.abs(away[1]) * size[1] / 2;
  const place = freePlace(parts, pointOf(arm, u, -far).map((value, axis) => value - size[axis] / 2), size, away, arm.out);
  parts.things += headOf(group, at, place[0] + (size[0] - WALKER.width) / 2, place[1]);
  shown.groups.add(at);
  const button = site.movements.findIndex(movement => movement.group === at);
  parts.things += buttonAt(site.movements[button], button, ...pointOf(arm, u, 0));
  shown.buttons.add(button);
}

/** Metres before the stop line become a distance in the picture; without them detectors follow each other. */
function drawDetectors(site, arm, parts, shown) {
  const used = new Map();
  const metres = ({ one }) => one.metres ?? 0;
  for (const { one, at } of numberedOf(site.detectors, arm).sort((a, b) => metres(a) - metres(b))) {
    const { middle, wide } = sideOf(arm, one.lanes);
    const most = arm.begin + arm.length - 12;
    const u = Math.max(used.get(middle) ?? 0, Math.min(arm.stop + 38 + metres({ one }), most));
    used.set(middle, u + 20);
    arm.length = Math.max(arm.length, u + 12 - arm.begin);
    parts.things += detectorAt(one, at, ...pointOf(arm, u, middle), arm.approach.bearing, Math.max(15, wide - 4), 15);
    shown.detectors.add(at);
  }
}

/** What the text gives no place stands beside the plan. */
function trayOf(site, shown, x, y) {
  const left = (list, set) => list.map((one, at) => ({ one, at })).filter(({ at }) => !set.has(at));
  const rest = {
    groups: left(site.groups, shown.groups),
    detectors: left(site.detectors, shown.detectors),
    buttons: left(site.movements, shown.buttons),
  };
  if (rest.groups.length + rest.detectors.length + rest.buttons.length === 0) return { body: "", width: 0, height: 0 };
  const cell = cellOf(site.groups);
  const width = 17 + 4 * cell;
  const column = drawColumn({ letter: "", label: "without a place" }, rest, width, cell);
  return { body: `<g transform="translate(${x} ${y})">${column.body}</g>`, width, height: column.height };
}
