// Tests of target/workbench.html in chromium. Each test is a function that throws if the page is wrong; with a test's
// name as argument only this one runs. `--faults` also damages the page in several ways and expects that a test fails.
"use strict";

const fs = require("node:fs");
const path = require("node:path");
const assert = require("node:assert/strict");
const { Browser, FONTS } = require("./browser.js");

const ROOT = path.resolve(__dirname, "../../..");
const PAGE = path.join(ROOT, "target/workbench.html");
const EXAMPLES = path.join(ROOT, "examples");

/** Sizes of the window for the tests of the layout. */
const SIZES = [[1000, 700], [1280, 800], [1600, 900], [1920, 1080]];

/** The folders of examples/ with their sites and the scripts with a stored trace of the proved trace program. */
const folders = fs.readdirSync(EXAMPLES).filter(name => fs.existsSync(path.join(EXAMPLES, name, "site.txt")));
const tracesOf = folder => fs.readdirSync(path.join(EXAMPLES, folder)).filter(name => /^trace.*\.txt$/.test(name))
  .map(name => ({ script: name.replace("trace", "inputs").replace(".txt", ""), text: fs.readFileSync(path.join(EXAMPLES, folder, name), "utf8") }));

const load = (browser, name, script = "by hand") =>
  browser.value(`loadExample("${name}"), byId("script").value = "${script}", restart(), choose("junction")`);

/** Occupies every detector and presses every button, until something else is held. */
const HOLD_ALL = "page.run.held = (1n << BigInt(page.run.site.detectors.length)) - 1n | ((1n << BigInt(page.run.site.movements.length)) - 1n) << 48n";

const tests = {
  /** Each example is accepted, and its bytes are those of the stored personality. */
  async examplesLoad(browser) {
    for (const folder of folders) {
      await load(browser, folder);
      const stored = [...fs.readFileSync(path.join(EXAMPLES, folder, "personality.bin"))];
      assert.match(await browser.value("byId('status').textContent"), /^accepted/, folder);
      assert.deepEqual(await browser.value("[...page.run.bytes]"), stored, folder);
      const heads = await browser.value("document.querySelectorAll('#view [data-group][data-colour]').length");
      assert.equal(heads, await browser.value("page.run.site.groups.length"), `${folder}: a head for each group`);
      const inputs = await browser.value("document.querySelectorAll('#view .input').length");
      assert.equal(inputs, await browser.value("page.run.site.detectors.length + page.run.site.movements.length"), `${folder}: detectors and buttons`);
    }
    assert.ok(folders.length >= 8);
  },

  /** What the page has shown in a script is the trace of the proved trace program, and the lamps show its last line. */
  async tracesAreEqual(browser) {
    let count = 0;
    for (const folder of folders) {
      for (const { script, text } of tracesOf(folder)) {
        await load(browser, folder, script);
        const rows = text.trimEnd().split("\n");
        await browser.value(`steps(${rows.length - 1})`);
        assert.equal(await browser.value("page.run.trace"), text, `${folder} ${script}`);
        const shown = await browser.value("Array.from(document.querySelectorAll('#view [data-group][data-colour]')).sort((a, b) => a.dataset.group - b.dataset.group).map(head => head.dataset.colour).join('')");
        assert.equal(shown, rows.at(-1).split(" ")[3], `${folder} ${script}: lamps`);
        count += 1;
      }
    }
    assert.ok(count >= 15, `${count} traces`);
  },

  /** A click on each button leads to its walk in less than the movement's wait; the page shows the demand until then. */
  async pressesLeadToWalks(browser) {
    let walks = 0;
    for (const site of ["four_arms", "crossings", "staggered", "largest"]) {
      await load(browser, site);
      const movements = await browser.value("page.run.site.movements.map(({ group, name }) => ({ group, name }))");
      for (let at = 0; at < movements.length; at++) {
        await load(browser, site);
        await browser.value("steps(200)");
        await browser.click(`#view .input[data-bit="${48 + at}"]`);
        await browser.value("steps(1)");
        const before = await browser.value("({ bound: page.run.waits[page.run.site.phases.length + " + at + "], demand: byId('demands').textContent, walks: page.run.stage(" + at + ") === 1 })");
        if (before.walks) continue;
        assert.ok(before.demand.includes(`${movements[at].name} walk`), `${site}: demand of ${movements[at].name}: ${before.demand}`);
        assert.ok(before.demand.includes(`0.0 of ${(before.bound / 10).toFixed(1)} s`), `${site}: its own wait beside it: ${before.demand}`);
        const waited = await browser.value(`(() => { for (let n = 1; n <= ${before.bound}; n++) { page.run.step(); if (page.run.colours[${movements[at].group}] === 2) return n; } return null; })()`);
        assert.ok(waited !== null && waited < before.bound, `${site}: ${movements[at].name} walks after ${waited} of ${before.bound} steps`);
        await browser.value("refresh()");
        assert.ok(!(await browser.value("byId('demands').textContent")).includes(`${movements[at].name} walk`), `${site}: demand is met`);
        assert.equal(await browser.value(`document.querySelector('#view [data-group="${movements[at].group}"]').dataset.colour`), "G");
        walks += 1;
      }
    }
    assert.ok(walks >= 8, `only ${walks} walks were waited for`);
  },

  /** With everything occupied and pressed all the time, everybody waits in this run, and nobody as long as the own wait. */
  async waitsAreKept(browser) {
    for (const site of ["four_arms", "crossings"]) {
      await load(browser, site);
      await browser.value(`${HOLD_ALL}, steps(6000), choose('waits')`);
      const rows = await browser.value("Array.from(document.querySelectorAll('#seen tbody tr'), row => Array.from(row.cells, cell => cell.textContent).slice(0, 4))");
      assert.equal(rows.length, await browser.value("page.run.site.phases.length + page.run.site.movements.length"), site);
      for (const [name, times, longest, wait] of rows) {
        const waited = Number(times) > 0 ? Number(longest) : 0;
        assert.ok(waited < Number(wait), `${site}: ${name} waits ${longest} of ${wait} s, ${times} times`);
      }
      assert.ok(rows.every(([name, times]) => !name.endsWith("walk") || Number(times) > 2), `${site}: ${JSON.stringify(rows)}`);
    }
  },

  /** Mistakes, refusals and warnings are at their lines, while typing and without the mouse. */
  async errorsAreAtTheirLines(browser) {
    const cases = [
      ["two_phases", "V2: V1", "V2:", ["refusal", "conflicts"]],
      ["two_phases", "A    0   20", "A    0   5", ["refusal", "A    0   5"]],
      ["crossings", "P1: V2 V5 V7", "P1: V2 V5 V77", ["error", "P1: V2 V5 V77"]],
      ["t_junction", "1     B      non-locking", "1     Q      non-locking", ["refusal", "1     Q"]],
      ["four_arms", "5.0 s   15 s", "5.0 s   1.5 s", ["warning", "5.0 s   1.5 s"]],
      ["four_arms", "start red   4 s", "start red   4.05 s", ["error", "start red"]],
      ["four_arms", "west    speed 60", "west    speed 30", ["note", "west    speed 30"]],
      ["four_arms", "P1: V4 V5 V6", "P1: V4 V5 V6 V4", ["warning", "P1: V4 V5 V6 V4"]],
    ];
    for (const [site, before, after, [severity, row]] of cases) {
      await load(browser, site);
      const found = await browser.value(`(() => {
        const text = page.editor.text, changed = text.replace(${JSON.stringify(before)}, ${JSON.stringify(after)});
        if (text === changed) throw new Error("nothing to change");
        page.editor.area.value = changed;
        page.editor.area.dispatchEvent(new Event("input"));
        const line = changed.split("\\n").findIndex(one => one.includes(${JSON.stringify(row)})) + 1 + (${JSON.stringify(row)} === "conflicts" ? 1 : 0);
        const mark = byId("gutter").children[line - 1];
        const messages = Array.from(byId("messages").querySelectorAll("button"), button => [button.className, button.querySelector("b").textContent, button.getAttribute("aria-label")]);
        return { line, mark: mark.className, underlined: byId("paint").children[line - 1].querySelectorAll("span." + mark.className).length, messages, lines: byId("gutter").children.length, rows: changed.split("\\n").length };
      })()`);
      const what = `${site}: ${after}: ${JSON.stringify(found)}`;
      assert.equal(found.mark, severity, what);
      assert.equal(found.underlined, 1, what);
      assert.equal(found.lines, found.rows, what);
      assert.ok(found.messages.some(([kind, line]) => kind === severity && line === String(found.line)), what);
      await browser.value(`document.querySelector("#messages button.${severity}").click()`);
      const cursor = await browser.value("page.editor.text.slice(0, page.editor.area.selectionStart).split('\\n').length");
      assert.ok(found.messages.some(([, line]) => line === String(cursor)), `cursor in line ${cursor}, ${what}`);
    }
  },

  /** Every control has a name in the accessibility tree, and the Tab key reaches each. */
  async controlsHaveNames(browser) {
    await load(browser, "four_arms", "inputs");
    await browser.value("document.activeElement.blur()");
    let controls;
    for (const view of ["conflicts", "waits", "road", "junction"]) {
      await browser.value(`choose("${view}")`);
      if (view === "road") await browser.until("page.road?.part > 0");
      controls = await namedControls(browser, view);
    }
    const list = "button:not(:disabled), select, textarea, input:not([hidden]), [role=button], a[href]";
    const wanted = await browser.value(`Array.from(document.querySelectorAll("${list}"), one => one.id || one.dataset.bit || one.textContent)`);
    const reached = await tabRound(browser);
    for (const one of wanted) assert.ok(reached.has(one), `${one} is not reached by Tab; reached: ${[...reached]}`);
    assert.equal(controls.length, wanted.length, "the controls of the tree are those of the page");
    assert.ok(controls.length >= 25, `${controls.length} controls`);
  },

  /** Keys do what the mouse does: play, step, detectors with Enter, held ones with Shift and Enter. */
  async keysWork(browser) {
    await load(browser, "two_phases");
    await browser.value("byId('step').focus()");
    await browser.key(" ", 32, 0, " ");
    assert.equal(await browser.value("page.run.now"), 1, "space makes a step");
    await browser.value("document.querySelector('#view .input[data-bit=\"1\"]').focus()");
    await browser.key("Enter", 13, 0, "\r");
    await browser.value("steps(2)");
    const spans = await browser.value("page.run.detectors[1].spans(1, page.run.now, page.run.now)");
    assert.deepEqual(spans, [[1, 1, 0], [2, 2, 1], [3, 3, 0]], "Enter occupies a detector for one step");
    await browser.key("Enter", 13, 8, "\r");
    await browser.value("steps(5)");
    assert.equal(await browser.value("document.querySelector('#view .input[data-bit=\"1\"]').getAttribute('aria-pressed')"), "true");
    assert.deepEqual(await browser.value("page.run.detectors[1].spans(4, 8, 8)"), [[4, 8, 1]], "Shift and Enter holds it");
    await browser.value("byId('play').focus()");
    await browser.key("Enter", 13, 0, "\r");
    await browser.until("page.run.now >= 12");
    await browser.key("Enter", 13, 0, "\r");
    assert.equal(await browser.value("page.playing"), false);
  },

  /** A detector is occupied for as long as the mouse is pressed on it, and with Hold until the next click. */
  async mouseHolds(browser) {
    await load(browser, "four_arms");
    await browser.send("Input.dispatchMouseEvent", { type: "mousePressed", ...await browser.middle("#view .input[data-bit='4']"), button: "left", clickCount: 1 });
    await browser.value("steps(3)");
    await browser.send("Input.dispatchMouseEvent", { type: "mouseReleased", ...await browser.middle("#view .input[data-bit='4']"), button: "left", clickCount: 1 });
    await browser.value("steps(2)");
    await browser.click("#hold");
    await browser.click("#view .input[data-bit='4']");
    await browser.value("steps(2)");
    await browser.click("#view .input[data-bit='4']");
    await browser.value("steps(1)");
    await browser.click("#hold");
    assert.deepEqual(await browser.value("page.run.detectors[4].spans(1, 8, 8)"), [[1, 3, 1], [4, 5, 0], [6, 7, 1], [8, 8, 0]]);
  },

  /** Play makes ten steps in a second, and a hundred with × 10. A busy machine loses some, so the best of three counts. */
  async playKeepsTime(browser) {
    await load(browser, "four_arms", "inputs");
    for (const [fast, least, most] of [[false, 5, 7], [true, 45, 70]]) {
      const seen = [];
      for (let tries = 0; tries < 3 && !seen.some(now => now >= least && now <= most); tries++) {
        await browser.value(`restart(), page.fast !== ${fast} && byId("fast").click(), play(true)`);
        await browser.value("new Promise(resolve => setTimeout(resolve, 600))");
        seen.push(await browser.value("play(false), page.run.now"));
      }
      assert.ok(seen.at(-1) >= least && seen.at(-1) <= most, `${seen} steps in 0.6 s, fast: ${fast}`);
    }
    await browser.value("byId('fast').click()");
  },

  /** Each tab opens, by mouse and by arrow key, and shows what it is for. */
  async tabsOpen(browser) {
    await load(browser, "four_arms", "inputs");
    await browser.value("steps(700)");
    await browser.click("#tab-conflicts");
    const conflicts = await browser.value("Array.from(document.querySelectorAll('.matrix tbody tr'), row => Array.from(row.querySelectorAll('td')).slice(2, -1).map(cell => cell.className === 'conflict'))");
    const wanted = await browser.value("page.run.site.groups.map((group, row) => page.run.site.groups.map((_, column) => group.conflicts.includes(column)))");
    assert.deepEqual(conflicts, wanted, "the matrix");
    await browser.value("byId('tab-conflicts').focus()");
    await browser.key("ArrowRight", 39);
    assert.equal(await browser.value("page.view"), "waits", "the arrow key");
    for (const site of ["four_arms", ...folders]) {
      await browser.value(`loadExample("${site}"), choose("waits")`);
      const { bound, sum, total, rest } = await browser.value(`(() => { const parts = boundParts(page.library, page.run.site, page.run.bytes); return { bound: parts.bound, rest: parts.rest,
        sum: Array.from(document.querySelectorAll("#view .bound td.sum"), cell => Math.round(10 * Number(cell.textContent))).slice(0, -1).reduce((a, b) => a + b, 0), total: page.library.waitBound(page.run.bytes).value }; })()`);
      assert.equal(sum, total, `${site}: the parts make the bound`);
      assert.equal(bound, total, site);
      assert.equal(rest, 0, `${site}: no part is left over`);
      const rows = kind => browser.value(`Array.from(document.querySelectorAll("#view .${kind} tbody tr"), row => [row.cells[1], ...row.querySelectorAll("b")].map(cell => Math.round(10 * Number(cell.textContent))))`);
      const own = await rows("own"), parts = await rows("parts");
      for (const [whole, ...things] of [...own, ...parts]) assert.equal(things.reduce((a, b) => a + b, 0), whole, `${site}: what a wait and a part is made of`);
      assert.deepEqual(own.map(([wait]) => wait), await browser.value("page.library.waits(page.run.bytes)"), `${site}: the waits of the library`);
      const seen = await browser.value("Array.from(document.querySelectorAll('#seen tbody tr'), row => Math.round(10 * Number(row.cells[3].textContent)))");
      assert.deepEqual(seen, own.map(([wait]) => wait), `${site}: beside the longest waits of the run`);
      if (site === "staggered") assert.deepEqual(seen, [557, 598, 755, 792], "the waits of the staggered junction");
    }
    for (const site of ["four_phases", "t_junction", "two_phases"]) {
      await browser.value(`loadExample("${site}")`);
      await browser.click("#tab-road");
      await browser.until("page.road?.part === 1", 60);
      const rows = await browser.value("Array.from(document.querySelectorAll('.road tbody tr'), row => Array.from(row.querySelectorAll('td'), cell => cell.textContent).slice(0, 4).map(Number))");
      const stored = fs.readFileSync(path.join(EXAMPLES, site, "table.txt"), "utf8").trimEnd().split("\n").slice(1)
        .map(row => row.split(" ").map(Number)).map(([, , rate, arrived, queued, gone]) => [rate, arrived, gone, queued]);
      assert.deepEqual(rows, stored, `${site}: the table of the road is that of run_road`);
    }
  },

  /** Nothing is cut off or covered, whatever font the reader has: each site in each font and size, and each tab. */
  async layoutFits(browser) {
    const examples = await browser.value("EXAMPLES.map(example => example.name)");
    const loads = [...examples.map(name => [name, `loadExample("${name}")`]),
      ...slanted().map(text => [text.split("\n")[1], `load({ name: "slanted", text: ${JSON.stringify(text)}, inputs: [] })`])];
    for (const family of [FONTS.wide, FONTS.narrow, FONTS.ordinary]) {
      await browser.font(family);
      for (const [width, height] of SIZES) {
        await browser.size(width, height);
        const where = `in ${family} at ${width}`;
        for (const [site, loaded] of loads) await fits(browser, `${loaded}, choose("junction"), steps(250)`, `${site} ${where}`);
        for (const tab of ["conflicts", "waits"]) await fits(browser, `loadExample("largest"), choose("${tab}")`, `${tab} ${where}`);
        await browser.value(`loadExample("four_phases"), choose("road")`);
        await browser.until("page.road?.points.length > 0");
        await fits(browser, "0", `road ${where}`);
      }
    }
  },

  /** Long texts wrap or move: verdicts, refusals, notices, the clock, names, and what the timeline tells of a step. */
  async longTextsFit(browser) {
    await browser.font(FONTS.wide);
    await browser.size(1000, 700);
    const changed = (before, after) => `page.editor.text = page.editor.text.replaceAll(${before}, ${JSON.stringify(after)}), textChanged()`;
    const status = async wanted => assert.match(await browser.value("byId('status').textContent"), wanted);
    const notice = async wanted => assert.match(await browser.value("byId('notice').textContent"), wanted);
    await load(browser, "largest", "inputs_walks");
    await fits(browser, `${HOLD_ALL}, steps(600)`, "everybody waits");
    await fits(browser, LONGEST_CLOCK, "the clock");
    assert.match(await browser.value("byId('clock').textContent"), /early cut-off green/);
    await fits(browser, changed("/P5 +150/g", "P5 1x0"), "a mistake");
    await status(/^1 mistake/);
    await notice(/last accepted/);
    await fits(browser, changed("/P5 1x0/g", "P5 9000"), "a refusal");
    await status(/^refused: \d+ at byte \d+$/);
    await fits(browser, `openFile(new File([new Uint8Array([1, 0, 3])], "the_personality_of_the_junction_of_high_street_and_mill_lane.bin"))`, "bytes that are not shown");
    await status(/mill_lane.bin is not shown: ./);
    await load(browser, "four_arms");
    await fits(browser, `openFile(new File(["steps 5\\n3 detector 9\\n"], "inputs_of_the_evening_peak_on_a_weekday.txt")).then(() => steps(300))`, "inputs that do not fit");
    await notice(/^inputs_of_the_evening_peak_on_a_weekday, line 2: ./);
    await fits(browser, `${changed("/8.0 s/g", "9.0 s")}, ${HOLD_ALL}, steps(3)`, "new times wait");
    assert.match(await browser.value("byId('clock').textContent"), /new times wait/);
    await fits(browser, `${changed("/\\b([VP]\\d)\\b/g", "northbound-and-southbound-$1")}, ${HOLD_ALL}, steps(300)`, "long names in a plan");
    await status(/^accepted/);
    for (const tab of ["conflicts", "waits", "road", "junction"]) await fits(browser, `choose("${tab}")`, `long names: ${tab}`);
    await load(browser, "crossings");
    await fits(browser, `${changed("/\\b([VP]\\d)\\b/g", "arm-$1")}, ${HOLD_ALL}, steps(300)`, "long names in columns");
    for (const text of slanted()) {
      const named = text.replaceAll(/\b(west|east|south|bus)\b/g, "the-$1-road-of-the-town").replace(/(the-west\S+) speed/, "$1 bearing 270 speed").replace(/(the-east\S+) speed/, "$1 bearing 80 speed");
      await fits(browser, `load({ name: "slanted", text: ${JSON.stringify(named)}, inputs: [] }), steps(1)`, "long names of arms");
      await status(/^accepted/);
    }
    await load(browser, "four_phases", "inputs_saturated");
    for (const span of [300, 9000, 36000]) await fits(browser, `byId("span").value = ${span}, steps(1500)`, `${span} steps of the timeline`);
    await browser.value(`loadExample("largest"), byId("span").value = 1200, steps(1500)`);
    for (const part of [0.3, 0.6, 0.9]) {
      const { x, y, width } = await browser.value("byId('rows').getBoundingClientRect().toJSON()");
      await browser.send("Input.dispatchMouseEvent", { type: "mouseMoved", x: x + part * width, y: y + 60 });
      assert.equal(await browser.value("byId('cross').hidden"), false);
      await fits(browser, "0", `the pointer at ${part}`);
    }
  },

  /** While a site runs, and while one types, controls and views stay where they are. */
  async layoutIsCalm(browser) {
    for (const [family, [width, height]] of [FONTS.wide, FONTS.ordinary].flatMap(family => SIZES.map(size => [family, size]))) {
      await browser.font(family);
      await browser.size(width, height);
      await load(browser, "four_arms", "inputs");
      const before = await asked(browser, "frame()");
      const stays = async (does, what) => {
        await browser.value(`${does}, 0`);
        assert.deepEqual(await asked(browser, "frame()"), before, `${what} in ${family} at ${width}`);
      };
      await stays("steps(1)", "the first step");
      await stays("steps(800)", "80 s");
      await stays("play(true)", "play");
      await stays("play(false)", "pause");
      await stays(LONGEST_CLOCK, "the longest clock");
      await stays("page.editor.text = page.editor.text.replace('8.0 s', '8.0x s'), textChanged()", "a mistake");
      await stays("page.editor.text = page.editor.text.replace('8.0x s', '9.0 s'), textChanged(), steps(1)", "new times");
    }
  },

  /** The timeline has a row for each thing, and tells what was shown in the step under the pointer. */
  async timelineTells(browser) {
    await load(browser, "crossings", "inputs");
    await browser.value("steps(700)");
    const labels = await browser.value("Array.from(document.querySelectorAll('#rows .label'), label => label.textContent)");
    const wanted = await browser.value("['phase', ...page.run.site.groups.map(group => group.name), 'A', 'D', ...page.run.site.movements.map(movement => movement.name), ...page.run.site.movements.map((_, at) => 'B' + at), ...page.run.site.detectors.map((_, at) => 'D' + at)]");
    assert.deepEqual(labels, wanted);
    const place = await browser.value("(() => { const { left, top } = byId('rows').getBoundingClientRect(), range = timelineRange(), columns = timelineColumns(timelineRows(page.run), range.width); return { x: left + columns.left + (600 - range.from) / (range.to - range.from) * (columns.right - columns.left), y: top + 60 }; })()");
    await browser.send("Input.dispatchMouseEvent", { type: "mouseMoved", ...place });
    const [told, step] = await browser.value("[byId('cross').textContent, Math.round(10 * parseFloat(byId('cross').textContent))]");
    assert.ok(Math.abs(step - 600) <= 3, told);
    const [, phase, interval, colours] = fs.readFileSync(path.join(EXAMPLES, "crossings/trace.txt"), "utf8").split("\n")[step].split(" ");
    const names = await browser.value("page.run.site.groups.map(group => group.name)");
    const green = names.filter((_, at) => colours[at] === "G");
    const intervalName = await browser.value(`INTERVAL_NAMES[INTERVAL_LETTERS.indexOf("${interval}")]`);
    assert.equal(told.split(" · ").slice(1).join(" · "), `${phase} ${intervalName} · green: ${green.join(" ")}`);
  },

  /** New times are handed to the running site; anything else starts a new run. */
  async textIsAdopted(browser) {
    await load(browser, "two_phases");
    await browser.value("steps(20)");
    const change = (before, after) => browser.value(`page.editor.area.value = page.editor.text.replace(${JSON.stringify(before)}, ${JSON.stringify(after)}), page.editor.area.dispatchEvent(new Event("input"))`);
    await change("B    0   20", "B    0   40");
    assert.deepEqual(await browser.value("[page.run.now, page.run.timesWait]"), [20, true], "new times wait");
    assert.ok((await browser.value("byId('clock').textContent")).includes("new times wait"));
    const waits = await browser.value("page.run.waits");
    await browser.value("while (page.run.timesWait) { page.run.held = page.run.interval < 5 ? 2n : 3n; page.run.step(); } refresh()");
    assert.match(await browser.value("byId('demands').textContent"), /phase A\d+\.\d snew times/, "a demand that began under other times");
    assert.deepEqual(await browser.value("page.run.waits"), [waits[0] + 20, waits[1]], "a longer minimum green of B is in the wait of A");
    await change("1     B      locking", "1     B      non-locking");
    assert.deepEqual(await browser.value("[page.run.now, page.run.timesWait]"), [0, false], "another site begins anew");
    await change("V2: V1", "V2:");
    assert.ok((await browser.value("byId('notice').textContent")).length > 0, "a refused text is said to be stale");
    assert.equal(await browser.value("byId('save-bytes').disabled"), true);
    await browser.click("#restart");
    assert.ok((await browser.value("byId('notice').textContent")).length > 0, "also after a restart");
    await change("V2:\n", "V2: V1\n");
    assert.equal(await browser.value("byId('notice').textContent"), "");
    await browser.value(`load({ name: "none", text: "site\\n", inputs: [] })`);
    assert.deepEqual(await browser.value("[page.run, byId('play').disabled, byId('save-trace').disabled, document.querySelectorAll('#view .input, #rows svg').length]"), [null, true, true, 0], "no junction without a text");
    await load(browser, "two_phases");
    assert.equal(await browser.value("byId('play').disabled"), false);
  },

  /** A word typed into the text is checked at once, and a message leads back to it. */
  async typingIsChecked(browser) {
    await load(browser, "two_phases");
    await browser.value("byId('text').focus(), byId('text').setSelectionRange(page.editor.text.indexOf('V1: V2') + 6, page.editor.text.indexOf('V1: V2') + 6)");
    await browser.type(" V9");
    const line = await browser.value("page.editor.text.split('\\n').indexOf('V1: V2 V9') + 1");
    assert.match(await browser.value("byId('status').textContent"), /^1 mistake/);
    assert.equal(await browser.value("document.querySelector('#messages button').getAttribute('aria-label')"),
      await browser.value(`"Line ${line}, mistake: " + page.check.messages[0].text`));
    for (let count = 0; count < 3; count++) await browser.key("Backspace", 8);
    assert.match(await browser.value("byId('status').textContent"), /^accepted/);
    await browser.value("page.editor.area.value = page.editor.text.replace('V2 rate 1800', 'V2 rate 1801'), page.editor.area.dispatchEvent(new Event('input'))");
    const road = await browser.value("Array.from(byId('messages').querySelectorAll('.refusal'), button => button.textContent).join()");
    assert.match(road, /1801/, "a stream that the road refuses");
  },

  /** Names of a text are shown as they are, and never become part of the page. */
  async namesAreOnlyText(browser) {
    const name = "<img/src/onerror=document.body.dataset.bad=1>";
    const text = fs.readFileSync(path.join(ROOT, "workbench/examples/four_arms/site.txt"), "utf8").replace(/\b(V1|P1)\b/g, word => name + word).replace("High Street and Mill Lane", name);
    await browser.value(`load({ name: ${JSON.stringify(name)}, text: ${JSON.stringify(text)}, inputs: [{ name: ${JSON.stringify(name)}, text: "steps 50\\n10 button 0\\n" }] }), steps(60)`);
    assert.match(await browser.value("byId('status').textContent"), /^accepted/);
    for (const view of ["junction", "conflicts", "waits", "road"]) {
      await browser.value(`choose("${view}"), steps(1)`);
      if (view === "road") await browser.until("page.road?.part === 1", 30);
      assert.equal(await browser.value("document.querySelectorAll('img').length + ' ' + document.body.dataset.bad"), "0 undefined", view);
      assert.ok((await browser.value("document.body.innerText")).includes(name + "V1"), view);
    }
    await browser.value("page.editor.area.value = page.editor.text.replace('V1: V4', 'V1: '), textChanged()");
    assert.equal(await browser.value("document.querySelectorAll('img').length + ' ' + document.body.dataset.bad"), "0 undefined", "messages");
  },

  /** What is saved is what is shown: text, bytes, picture, and inputs that make the same trace again. */
  async filesAreSaved(browser) {
    const folder = fs.mkdtempSync(path.join(ROOT, "target/page/saved-"));
    await load(browser, "crossings", "inputs");
    await browser.value("steps(900)");
    assert.equal((await browser.saved("#save-text", "crossings.txt", folder)).toString(), fs.readFileSync(path.join(EXAMPLES, "crossings/site.txt"), "utf8"));
    assert.deepEqual(await browser.saved("#save-bytes", "crossings.bin", folder), fs.readFileSync(path.join(EXAMPLES, "crossings/personality.bin")));
    assert.match((await browser.saved("#save-picture", "crossings.svg", folder)).toString(), /^<svg .*<\/svg>$/s);
    const trace = (await browser.saved("#save-trace", "crossings_trace.txt", folder)).toString();
    assert.ok(fs.readFileSync(path.join(EXAMPLES, "crossings/trace.txt"), "utf8").startsWith(trace) && trace.split("\n").length === 902, "the trace");
    await browser.saved("#save-inputs", "crossings_inputs.txt", folder);
    await load(browser, "crossings");
    await browser.chooseFile("#file", path.join(folder, "crossings_inputs.txt"));
    await browser.until("byId('script').value === 'crossings_inputs'");
    await browser.value("steps(900)");
    assert.equal(await browser.value("page.run.trace"), trace);
    await browser.value(`openFile(new File(["steps 5\\n3 detector 9\\n"], "others.txt"))`);
    assert.match(await browser.value("byId('notice').textContent"), /^others, line 2: found `9`/, "inputs that do not fit");
    fs.rmSync(folder, { recursive: true });
  },

  /** Saved bytes open as a text with the same bytes, other bytes are refused in words, and a picture is XML with its own colours. */
  async filesRoundTrip(browser) {
    for (const folder of folders) {
      await browser.value("page.example = null");
      await browser.chooseFile("#file", path.join(EXAMPLES, folder, "personality.bin"));
      await browser.until("page.example?.name === 'personality'", 2);
      const stored = [...fs.readFileSync(path.join(EXAMPLES, folder, "personality.bin"))];
      assert.deepEqual(await browser.value("[page.check.fine, ...page.check.bytes]"), [true, ...stored], folder);
    }
    await browser.value(`openFile(new File([new Uint8Array([1, 0, 3])], "other.bin"))`);
    assert.match(await browser.value("byId('status').textContent"), /^other.bin is not shown/);
    await load(browser, "four_arms", "inputs");
    await browser.value("steps(500)");
    const error = await browser.value("(() => { const read = new DOMParser().parseFromString(picture(), 'image/svg+xml'); return read.querySelector('parsererror')?.textContent ?? (/var\\(|light-dark/.exec(picture())?.[0] ?? ''); })()");
    assert.equal(error, "", "the picture");
    assert.deepEqual(browser.requests.filter(url => !/^(file|data|blob):/.test(url)), [], "nothing is asked of a network");
  },
};

/** A site of three arms and one of four, with slanted arms, two crossings on one arm and things without a place. */
function slanted() {
  const three = fs.readFileSync(path.join(__dirname, "slanted.txt"), "utf8");
  const four = three.replace("traffic right", "traffic left").replace("bearing 200", "bearing 170\nbus bearing 45").replace("pedestrian \"", "pedestrian approach bus \"");
  return [three, four];
}

/** The controls of the accessibility tree. Each has a name, and so has everything else that is told by its name alone. */
async function namedControls(browser, view) {
  const { nodes } = await browser.send("Accessibility.getFullAXTree");
  const shown = kinds => nodes.filter(node => !node.ignored && kinds.includes(node.role?.value));
  const controls = shown(["button", "combobox", "textbox", "slider", "tab", "checkbox", "link", "spinbutton", "menuitem"]);
  for (const node of [...controls, ...shown(["image", "meter", "progressbar", "tabpanel", "toolbar", "tablist", "region"])]) {
    assert.ok(node.name?.value?.trim(), `${view}: a ${node.role.value} without a name`);
  }
  return controls;
}

/** The clock with the longest names and numbers that it has to show. */
const LONGEST_CLOCK = "showClock({ phase: 6, interval: 4, target: 1, age: 1500, timesWait: true, now: 360000 })";

const LAYOUT = fs.readFileSync(path.join(__dirname, "misplaced.js"), "utf8");

/** The value of a function of misplaced.js in the page, once the page is drawn. */
async function asked(browser, call) {
  await browser.drawn();
  return browser.value(`(() => { ${LAYOUT} return ${call}; })()`);
}

/** Does something in the page; after it nothing is cut off or covered. */
async function fits(browser, does, what) {
  await browser.value(`(async () => { await (${does}); })()`);
  const faults = await asked(browser, "misplaced()");
  if (faults.length > 0) throw new Error(`${what}: ${faults.slice(0, 5).join("; ")}`);
}

/** What has the focus in a round of the Tab key. */
async function tabRound(browser) {
  const reached = new Set();
  for (let count = 0; count < 120; count++) {
    await browser.key("Tab", 9);
    const one = await browser.value("(() => { const one = document.activeElement; return one === document.body ? '' : one.id || one.dataset.bit || one.textContent; })()");
    if (count > 0 && one === "" && reached.size > 10) break;
    reached.add(one);
  }
  return reached;
}

/** Damages of the page: the test that finds it, what is replaced, and by what. */
const FAULTS = [
  ["examplesLoad", "const bytes = new Uint8Array(built.bytes);", "const bytes = new Uint8Array(built.bytes); bytes[6] += 1;"],
  ["examplesLoad", "function detectorAt(detector, at, x, y, turned = 0, wide = 22, long = 16) {", "function detectorAt(detector, at, x, y, turned = 0, wide = 22, long = 16) { if (at === 7) return '';"],
  ["tracesAreEqual", "this.inputs = inputs;\n", "this.inputs = inputs; if (this.now === 2) this.colours[0] = 2;\n"],
  ["tracesAreEqual", "head.dataset.colour = COLOUR_LETTERS[shown];", "head.dataset.colour = 'R';"],
  ["pressesLeadToWalks", "if (holds) run.held ^= bit;\n  else run.clicked |= bit;", "if (holds) run.held ^= bit;"],
  ["errorsAreAtTheirLines", "gutterLine(at + 1, byLine.get(at + 1))", "gutterLine(at + 1, byLine.get(at + 2))"],
  ["controlsHaveNames", `role="button" tabindex="0"`, `role="button"`],
  ["controlsHaveNames", `<label>Shows <select id="span">`, `<label><select id="span">`],
  ["keysWork", `event.key !== "Enter" && event.key !== " "`, `event.key !== "x"`],
  ["mouseHolds", "page.run.down |= bit;", "page.run.down |= 0n;"],
  ["playKeepsTime", "(page.fast ? 10 : 1)", "(page.fast ? 3 : 1)"],
  ["pressesLeadToWalks", "wait: since >= this.ruledSince ? wait : null", "wait: since >= this.ruledSince ? this.bound : null"],
  ["waitsAreKept", "run.waited(first, last));", "run.waited(first, last) + 600);"],
  ["textIsAdopted", "wait: since >= this.ruledSince ? wait : null", "wait"],
  ["textIsAdopted", "waits: this.library.waits(this.wanted), ruledSince", "ruledSince"],
  ["tabsOpen", "twoBytes(buffer, 2 * at));", "twoBytes(buffer, 2 * at) + 1);"],
  ["tabsOpen", "wait: this.waits[phases.length + at]", "wait: this.bound"],
  ["tabsOpen", "seconds(thing.steps)}</b>", "seconds(thing.steps + 1)}</b>"],
  ["tabsOpen", "return more - bound;", "return more - bound + 1;"],
  ["tabsOpen", "const steps = Math.round(site.steps * point / ROAD_POINTS);", "const steps = Math.round(site.steps * point / (ROAD_POINTS + 1));"],
  ["tabsOpen", "groups[row].conflicts.includes(column)", "groups[column].conflicts.includes(column - 1)"],
  ["layoutFits", "!parts.boxes.some(box => covers(at, box))", "true"],
  ["layoutFits", "!parts.arms.some(arm => onRoad(at, arm))", "true"],
  ["layoutFits", "#right { grid-template: auto auto minmax(0, 52fr) minmax(0, 48fr) / minmax(0, 1fr);", "#right { grid-template: auto auto minmax(0, 52fr) minmax(0, 48fr) / 900px;"],
  ["layoutFits", "parts.things += buttonAt(site.movements[button], button, ...pointOf(arm, u, 0));", "parts.things = buttonAt(site.movements[button], button, ...pointOf(arm, u, -arm.half - 20)) + parts.things;"],
  ["layoutFits", "header .end { flex: 1 0 auto; }\n#status { flex: 1 0 auto; width: 37ch;", "header .end { flex: 1; }\n#status { flex: 1; width: 0; white-space: nowrap; overflow: hidden; text-overflow: ellipsis;"],
  ["layoutFits", "header, #controls, #tabs, #timebar { display: flex; flex-wrap: wrap;", "header, #controls, #tabs, #timebar { display: flex;"],
  ["layoutFits", "header { gap: 6px 8px;", "header { width: 1270px; gap: 6px 8px;"],
  ["layoutFits", "#status.bad {", "#example { width: 190px; }\n#status.bad {"],
  ["layoutFits", ".legend { display: flex; flex-wrap: wrap;", ".legend { flex: 1 1 0; overflow: hidden; display: flex;"],
  ["layoutFits", "minmax(0, 1fr) max(232px, 34ch);", "minmax(0, 1fr) 180px;"],
  ["layoutFits", "names.find(name => textWidth(name) <= width - 3.5)", "names.find(name => name.length * 4.5 <= width)"],
  ["layoutFits", "textIn(left - labels - 12, about,", "textIn(Infinity, about.slice(0, Math.floor((left - labels) / 4.5)),"],
  ["layoutFits", "const apart = textWidth(`${Math.ceil(to / 10)} s`) + 16;", "const apart = 24;"],
  ["longTextsFit", "textWidth(text) <= room - 5", "true"],
  ["longTextsFit", "font-weight: 600; overflow-wrap: anywhere; color: var(--good);", "font-weight: 600; white-space: nowrap; overflow: hidden; text-overflow: ellipsis; color: var(--good);"],
  ["longTextsFit", "line-height: 13px; overflow-wrap: anywhere;", "line-height: 13px; white-space: nowrap; overflow: hidden; text-overflow: ellipsis;"],
  ["longTextsFit", "#clock { flex: 1 1 36ch; container-type: inline-size;", "#clock { flex: 1; white-space: nowrap; overflow: hidden; text-overflow: ellipsis;"],
  ["longTextsFit", "Math.max(HEAD.width + 18, ...heads.map(({ one }) => widthOf(one) + 4))", "HEAD.width + 18"],
  ["longTextsFit", "Math.max(widthOf(group), textWidth(group.phases)) + 5", "0"],
  ["longTextsFit", "Math.min(textWidth(name), MOST_ARM_NAME) + 4", "4 * name.length"],
  ["longTextsFit", "Math.min(4, width - 4 - event.offsetX - told.offsetWidth)", "4"],
  ["layoutIsCalm", "#clock { flex: 1 1 36ch; container-type: inline-size;", "#clock { flex: 1 1 auto;"],
  ["layoutIsCalm", "min-width: 12ch; font-weight: 600;", "font-weight: 600;"],
  ["layoutIsCalm", "#status { flex: 1 0 auto; width: 37ch;", "#status { flex: 1 0 auto;"],
  ["timelineTells", "return this.values[this.placeOf(step)];", "return this.values[this.placeOf(step - 80)];"],
  ["timelineTells", "add(run.buttons, drawMark,", "add([], drawMark,"],
  ["textIsAdopted", "page.library.retime(run.bytes, run.state, check.bytes).number === 0", "false"],
  ["typingIsChecked", `this.area.addEventListener("input", () => changed(this.area.value));`, ""],
  ["typingIsChecked", "return number === 0 ? [] : [texts.tell(text, number, 0)];", "return [];"],
  ["namesAreOnlyText", "${escaped(group.name)}</th><td class", "${group.name}</th><td class"],
  ["filesAreSaved", "this.buttons, \"button\");", "this.buttons, \"detector\");"],
  ["filesAreSaved", "page.check.bytes, \"application/octet-stream\"", "page.run.state, \"application/octet-stream\""],
  ["filesRoundTrip", "bytes.includes(0) ? page.texts.show(bytes)", "bytes.includes(0) ? page.texts.show(bytes.slice(0, -1))"],
  ["filesRoundTrip", "return withColours(`<svg", "return (`<svg"],
];

/** Runs a test on a page; null, or why it failed. A page that does not open is thrown, because then no test has run. */
async function tried(browser, name, file) {
  browser.events.length = 0;
  await browser.open("file://" + file, 1280, 800);
  try {
    await tests[name](browser);
    assert.deepEqual(browser.errors, [], "errors of the page");
    return null;
  } catch (error) {
    return error.message;
  }
}

/** The page with one damage. */
function damaged(at) {
  const [name, before, after] = FAULTS[at];
  const text = fs.readFileSync(PAGE, "utf8");
  assert.ok(text.includes(before), `fault ${at} of ${name} has nothing to damage`);
  const file = path.join(ROOT, "target/page", `fault-${at}.html`);
  fs.writeFileSync(file, text.replaceAll(before, () => after));
  return file;
}

/** The tests of the page as it is, and, with `faults`, of each damaged page, which must fail. */
function trials(faults, chosen) {
  const whole = Object.keys(tests).map(name => ({ name, file: PAGE, passes: true }));
  const broken = faults ? FAULTS.map(([name], at) => ({ name, file: damaged(at), passes: false })) : [];
  return [...whole, ...broken].filter(({ name }) => chosen.length === 0 || chosen.includes(name));
}

/** Takes trials from the list until none is left; how many went wrong. */
async function lane(list) {
  const browser = await Browser.start();
  let bad = 0;
  try {
    for (let trial; (trial = list.shift());) {
      const { name, file, passes } = trial;
      const begin = Date.now();
      const failure = await tried(browser, name, file);
      const good = passes === (failure === null);
      bad += good ? 0 : 1;
      const what = passes ? name : `${name} finds ${path.basename(file, ".html")}`;
      const why = passes ? failure ?? "" : (failure ?? "the damaged page passes").split("\n")[0].slice(0, 120);
      console.log(`${good ? "ok  " : "FAIL"} ${what} (${((Date.now() - begin) / 1000).toFixed(1)} s) ${why}`);
    }
  } finally {
    await browser.close();
  }
  return bad;
}

/** Two browsers share the work. */
async function main() {
  const chosen = process.argv.slice(2).filter(one => !one.startsWith("--"));
  fs.mkdirSync(path.join(ROOT, "target/page"), { recursive: true });
  const unknown = chosen.filter(name => !(name in tests));
  assert.ok(unknown.length === 0, `no such test: ${unknown.join(" ")}`);
  const list = trials(process.argv.includes("--faults"), chosen);
  const bad = await Promise.all([lane(list), lane(list)]);
  process.exit(bad[0] + bad[1] === 0 ? 0 : 1);
}

main().catch(error => { console.error(error); process.exit(1); });
