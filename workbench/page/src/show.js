// What the page shows of a step: clock, lamps, inputs, panel, demands, timeline.
"use strict";

function refresh() {
  const { run } = page;
  if (!run) return;
  showClock(run);
  showInputs(run);
  showLamps(run);
  showAside(run);
  showTimeline(run);
  if (page.view === "waits") byId("seen").innerHTML = longestWaits(run);
}

function showClock(run) {
  const target = run.target === null ? "" : ` → ${letterOf(run.target)}`;
  const times = run.timesWait ? "new times wait · " : "";
  byId("clock").innerHTML = `<span>${letterOf(run.phase)} ${INTERVAL_NAMES[run.interval]}${target}, ${seconds(run.age)} s</span>\n` +
    `<span>${times}step ${run.now} · <b>${seconds(run.now)} s</b></span>`;
}

/** Gives heads and lanes of a picture the colours of the last step. */
function colour(picture, run) {
  for (const head of picture.querySelectorAll("[data-group][data-colour]")) {
    const shown = run.colours[head.dataset.group];
    if (head.dataset.colour === COLOUR_LETTERS[shown]) continue;
    head.dataset.colour = COLOUR_LETTERS[shown];
    head.setAttribute("aria-label", `${head.dataset.name}: ${COLOUR_NAMES[shown]}`);
  }
  for (const way of picture.querySelectorAll("[data-way]")) {
    way.dataset.shown = COLOUR_LETTERS[run.colours[way.dataset.way]];
  }
}

function showLamps(run) {
  if (run.now === 0) return;
  colour(byId("view"), run);
  for (const cell of document.querySelectorAll("#view [data-shows]")) {
    cell.dataset.colour = cell.textContent = COLOUR_LETTERS[run.colours[cell.dataset.shows]];
  }
  for (const column of document.querySelectorAll("#view .column")) {
    column.classList.toggle("now", Number(column.dataset.phase) === run.phase);
  }
}

function showInputs(run) {
  for (const input of document.querySelectorAll("#view .input")) {
    const bit = 1n << BigInt(input.dataset.bit);
    input.classList.toggle("on", (run.inputs & bit) !== 0n);
    input.classList.toggle("armed", (run.clicked & bit) !== 0n);
    input.setAttribute("aria-pressed", (run.held & bit) !== 0n);
  }
}

function showAside(run) {
  const why = run.why;
  byId("why").textContent = why || `${letterOf(run.phase)} is in ${INTERVAL_NAMES[run.interval]}`;
  byId("why").className = why ? "" : "quiet";
  const demands = run.demands.map(({ name, waited, wait }) => {
    if (wait === null) return `<tr><th scope="row">${escaped(name)}</th><td>${seconds(waited)} s</td><td class="none">new times</td></tr>`;
    const told = `${name}: waited ${seconds(waited)} of less than ${seconds(wait)} seconds`;
    const meter = `<meter min="0" max="${wait}" value="${waited}" aria-label="${escaped(told)}"></meter>`;
    return `<tr><th scope="row">${escaped(name)}</th><td>${seconds(waited)} of ${seconds(wait)} s</td><td>${meter}</td></tr>`;
  });
  byId("demands").innerHTML = demands.length ? `<table>${demands.join("")}</table>` : `<span class="none">nobody waits</span>`;
  const walks = run.site.movements.map((movement, at) =>
    `<tr><th scope="row">${escaped(movement.name)}</th><td class="${run.stage(at) ? "" : "none"}">${STAGE_NAMES[run.stage(at)]}</td></tr>`);
  byId("walks-title").hidden = walks.length === 0;
  byId("walks").innerHTML = walks.length ? `<table>${walks.join("")}</table>` : "";
}

/** Which steps the timeline shows, and how wide and tall it is. */
function timelineRange() {
  const [from, span] = [Number(byId("back").value), Number(byId("span").value)];
  return { from, to: from + span, width: byId("lines").clientWidth, room: byId("lines").clientHeight - 6 };
}

function showTimeline(run) {
  const back = byId("back");
  const follows = Number(back.value) === Number(back.max);
  back.max = Math.max(0, run.now - Number(byId("span").value));
  if (follows) back.value = back.max;
  byId("rows").innerHTML = timelinePicture(run, timelineRange());
}

/** What was shown in the step under the pointer. */
function showCross(event) {
  const { run } = page;
  const cross = byId("cross");
  cross.hidden = !run;
  if (!run) return;
  const { from, to, width } = timelineRange();
  const { left, right } = timelineColumns(timelineRows(run), width);
  const part = (event.offsetX - left) / (right - left);
  const step = from + Math.ceil(part * (to - from));
  cross.hidden = part <= 0 || part > 1 || step < 1 || step > run.now;
  if (cross.hidden) return;
  const position = run.position.at(step);
  const green = run.site.groups.filter((_, at) => COLOUR_LETTERS[run.groups[at].at(step)] === "G").map(group => group.name);
  cross.innerHTML = `<span>${seconds(step)} s · ${letterOf(position >> 3)} ${INTERVAL_NAMES[position & 7]} · green: ${green.join(" ") || "none"}</span>`;
  const told = cross.firstChild;
  told.style.maxWidth = `${width - 8}px`;
  cross.style.left = `${event.offsetX}px`;
  told.style.marginLeft = `${Math.min(4, width - 4 - event.offsetX - told.offsetWidth)}px`;
  cross.style.height = `${byId("rows").offsetHeight}px`;
}
