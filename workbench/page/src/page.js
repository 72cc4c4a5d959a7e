// What the page holds: one text, its check, and one run of the last text that was accepted.
"use strict";

const byId = id => document.getElementById(id);
const STEP_MILLISECONDS = 100;
const EXAMPLES = JSON.parse(byId("examples").textContent);

const page = {
  library: null, texts: null, editor: null,
  check: null,       // the last check of the text
  run: null,         // the run of the last accepted text
  example: null,
  view: "junction",
  playing: false, fast: false, hold: false,
  behind: 0,         // milliseconds that the run is behind the clock
  frame: 0,          // the next call of tick
  road: null,        // queues of the road, once they are asked for
};

function textChanged() {
  page.check = checkText(page.library, page.texts, page.editor.text);
  page.editor.show(page.check.messages);
  byId("status").textContent = page.check.status;
  byId("status").className = page.check.fine ? "" : "bad";
  document.title = `${page.check.site?.name ?? page.example.name} · Willowera workbench`;
  if (page.check.fine) adopt();
  byId("save-bytes").disabled = !page.check.fine;
  for (const id of ["play", "step", "restart", "save-inputs", "save-trace", "save-picture"]) byId(id).disabled = !page.run;
  if (!page.run) drawView();
  showNotice();
}

/** One line beside the tabs, if the run is not that of the text or the script does not fit. */
function showNotice() {
  const { check, run } = page;
  const mistake = run?.scriptMistake;
  if (run && !check.fine) byId("notice").textContent = "The junction runs the last accepted text.";
  else byId("notice").textContent = mistake ? `${byId("script").value}, line ${mistake.span.line}: ${mistake.text}` : "";
}

/** Runs the accepted text: goes on with new times if only times differ, else starts anew. */
function adopt() {
  const { run, check } = page;
  const same = run && sameBytes(run.wanted, check.bytes);
  const goesOn = same || (run?.now > 0 && page.library.retime(run.bytes, run.state, check.bytes).number === 0);
  if (!goesOn) return restart();
  Object.assign(run, { site: check.site, text: page.editor.text, wanted: check.bytes });
  shownAnew();
}

const sameBytes = (one, two) => one.length === two.length && one.every((byte, at) => byte === two[at]);

/** A new run of the last accepted text, from the fresh state. */
function restart() {
  const { check, run } = page;
  if (check.fine) page.run = new Run(page.library, check.site, check.bytes, page.editor.text);
  else if (run) page.run = new Run(page.library, run.site, run.wanted, run.text);
  if (page.run) shownAnew();
}

/** Reads the script again and draws everything for the run. */
function shownAnew() {
  page.road = null;
  readScript();
  drawView();
  refresh();
  showNotice();
}

/** The inputs of the chosen script for the steps to come. */
function readScript() {
  const script = page.example.inputs.find(inputs => inputs.name === byId("script").value);
  const { mistakes, inputs } = script ? page.texts.inputs(page.run.text, script.text) : { mistakes: [], inputs: [] };
  page.run.script = inputs.map(BigInt);
  page.run.scriptMistake = mistakes[0];
}

/** The names of the scripts to choose from. */
function listScripts(chosen) {
  const names = ["by hand", ...page.example.inputs.map(inputs => inputs.name)];
  byId("script").innerHTML = names.map(name => `<option>${escaped(name)}</option>`).join("");
  byId("script").value = chosen;
}

function load(example) {
  page.example = { ...example };
  page.run = null;
  play(false);
  const longest = [...example.inputs].sort((one, two) => two.text.length - one.text.length)[0];
  listScripts(longest?.name ?? "by hand");
  page.editor.text = example.text;
  textChanged();
}

function loadExample(name) {
  byId("example").value = name;
  load(EXAMPLES.find(example => example.name === name));
}
