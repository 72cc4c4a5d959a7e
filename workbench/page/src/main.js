// Time, detectors and buttons, and the controls of the page.
"use strict";

// ── Time ──

function play(on) {
  page.playing = on && page.run !== null;
  page.behind = 0;
  byId("play").textContent = page.playing ? "❚❚ Pause" : "▶ Play";
  cancelAnimationFrame(page.frame);
  if (page.playing) page.frame = requestAnimationFrame(first => tick(first, first));
}

/** Makes the steps that are due and shows the last one. */
function tick(now, before) {
  page.behind = Math.min(page.behind + (now - before) * (page.fast ? 10 : 1), 20 * STEP_MILLISECONDS);
  const due = Math.floor(page.behind / STEP_MILLISECONDS);
  page.behind -= due * STEP_MILLISECONDS;
  page.frame = requestAnimationFrame(next => tick(next, now));
  steps(due);
}

function steps(count) {
  for (let at = 0; at < count; at++) page.run.step();
  if (count > 0) refresh();
}

// ── Detectors and buttons ──

const bitOf = target => {
  const input = target.closest?.(".input");
  return input ? 1n << BigInt(input.dataset.bit) : null;
};

/** A press counts for the next step at least; with Hold or Shift it is held until the next press. */
function press(bit, holds) {
  const { run } = page;
  if (holds) run.held ^= bit;
  else run.clicked |= bit;
  showInputs(run);
}

function listenToInputs() {
  const view = byId("view");
  view.addEventListener("pointerdown", event => {
    const bit = bitOf(event.target);
    if (bit === null || event.button !== 0) return;
    const holds = page.hold || event.shiftKey;
    press(bit, holds);
    if (!holds) page.run.down |= bit;
  });
  for (const end of ["pointerup", "pointercancel", "blur"]) {
    window.addEventListener(end, () => { if (page.run) page.run.down = 0n; });
  }
  view.addEventListener("keydown", event => {
    const bit = bitOf(event.target);
    if (bit === null || (event.key !== "Enter" && event.key !== " ")) return;
    event.preventDefault();
    if (!event.repeat) press(bit, page.hold || event.shiftKey);
  });
}

// ── The controls ──

function toggle(id, field) {
  byId(id).addEventListener("click", () => {
    page[field] = !page[field];
    byId(id).setAttribute("aria-pressed", page[field]);
  });
}

function listen() {
  const on = (id, event, does) => byId(id).addEventListener(event, does);
  on("play", "click", () => play(!page.playing));
  on("step", "click", () => { play(false); steps(1); });
  on("restart", "click", restart);
  on("script", "change", restart);
  on("example", "change", event => loadExample(event.target.value));
  on("open", "click", () => byId("file").click());
  on("file", "change", event => { openFile(event.target.files[0]); event.target.value = ""; });
  on("save-text", "click", () => save(`${page.example.name}.txt`, page.editor.text, "text/plain"));
  on("save-bytes", "click", () => save(`${page.example.name}.bin`, page.check.bytes, "application/octet-stream"));
  on("save-inputs", "click", () => save(`${page.example.name}_inputs.txt`, page.run.inputScript, "text/plain"));
  on("save-trace", "click", () => save(`${page.example.name}_trace.txt`, page.run.trace, "text/plain"));
  on("save-picture", "click", () => save(`${page.example.name}.svg`, picture(), "image/svg+xml"));
  on("scheme", "change", event => { document.documentElement.dataset.scheme = event.target.value; });
  on("span", "change", () => { byId("back").value = byId("back").max; refresh(); });
  on("back", "input", refresh);
  on("rows", "pointermove", showCross);
  on("rows", "pointerleave", () => { byId("cross").hidden = true; });
  toggle("fast", "fast");
  toggle("hold", "hold");
  for (const tab of document.querySelectorAll("[role=tab]")) {
    tab.addEventListener("click", () => choose(tab.id.slice(4)));
  }
  on("tabs", "keydown", event => {
    const next = { ArrowRight: "nextElementSibling", ArrowLeft: "previousElementSibling" }[event.key];
    const tab = next && event.target[next];
    if (tab?.role === "tab") { tab.focus(); tab.click(); }
  });
  document.addEventListener("dragover", event => event.preventDefault());
  document.addEventListener("drop", event => {
    event.preventDefault();
    if (event.dataTransfer.files.length > 0) openFile(event.dataTransfer.files[0]);
  });
  listenToInputs();
  new ResizeObserver(() => { drawView(); refresh(); }).observe(byId("stage"));
}

async function begin() {
  page.library = new Library(await moduleIn("wasm-library"));
  page.texts = new SiteTexts(await moduleIn("wasm-site"));
  page.editor = new Editor(textChanged);
  byId("example").innerHTML = `<option value="" hidden>–</option>` +
    EXAMPLES.map(({ name, title }) => `<option value="${name}">${escaped(title)}</option>`).join("");
  listen();
  loadExample(EXAMPLES[0].name);
  document.body.dataset.ready = "yes";
}

begin();
