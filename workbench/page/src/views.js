// The four views and the choice among them.
"use strict";

function drawView() {
  const view = byId("view");
  view.className = page.view;
  byId("stage").className = page.view === "junction" ? "" : "wide";
  const { run } = page;
  if (!run) {
    view.innerHTML = `<p class="hint">The text is not accepted, so there is no junction yet.</p>`;
    for (const id of ["rows", "clock", "why", "demands", "walks"]) byId(id).textContent = "";
  } else if (page.view === "junction") {
    view.innerHTML = junctionPicture(run.site, { width: view.clientWidth - 20, height: view.clientHeight - 20 });
  } else if (page.view === "conflicts") {
    view.innerHTML = conflictTable(run);
  } else if (page.view === "waits") {
    view.innerHTML = waitsTable(page.library, page.texts, run);
  } else {
    drawRoad();
  }
}

function choose(view) {
  page.view = view;
  for (const tab of document.querySelectorAll("[role=tab]")) {
    const chosen = tab.id === `tab-${view}`;
    tab.setAttribute("aria-selected", chosen);
    if (chosen) byId("view").setAttribute("aria-labelledby", tab.id);
  }
  drawView();
  refresh();
}

/** The queues are asked for once for each text, while the view is open. */
function drawRoad() {
  const view = byId("view");
  const site = { site: page.run.site, bytes: page.run.wanted };
  if (site.site.streams.length === 0) {
    view.innerHTML = `<p class="hint">The text has no streams. Add the heading <b>streams</b> at its end with rows such as ` +
      `<code>detector 0 group V1 rate 400</code>, and the road is simulated for them.</p>`;
    return;
  }
  if (page.road) return showRoad(site.site, page.road);
  const road = page.road = { points: [] };
  roadQueues(page.library, site, ({ number, points, part }) => {
    if (page.road !== road) return false;
    Object.assign(road, { number, points, part });
    if (page.view === "road") showRoad(site.site, road);
    return true;
  });
}

function showRoad(site, { number, points, part }) {
  const view = byId("view");
  if (number) {
    const told = page.texts.tell(page.run.text, number, 0);
    view.innerHTML = `<p class="hint">The library refuses the road (${number}): ${escaped(told?.text ?? "")}</p>`;
    return;
  }
  if (points.length === 0) return;
  const progress = part < 1 ? `<progress max="1" value="${part}" aria-label="Simulated part">${part}</progress>` : "";
  view.innerHTML = `<p class="hint">The simulated road of the library with the streams of the text. Change their rates below the heading streams. ` +
    `${progress}</p>${roadTable(site, points)}`;
}
