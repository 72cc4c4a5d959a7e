// Files: what is opened and what is saved.
"use strict";

/** Offers a file for saving. */
function save(name, content, kind) {
  const link = document.createElement("a");
  link.href = URL.createObjectURL(new Blob([content], { type: kind }));
  link.download = name;
  link.click();
  setTimeout(() => URL.revokeObjectURL(link.href), 1000);
}

/** Opens a site text, an input script, which begins with `steps`, or the bytes of a personality, which are shown as a text. */
async function openFile(file) {
  const bytes = new Uint8Array(await file.arrayBuffer());
  const name = file.name.replace(/\.\w+$/, "");
  const text = bytes.includes(0) ? page.texts.show(bytes) : new TextDecoder().decode(bytes);
  if (text.startsWith("! ")) {
    byId("status").textContent = `${file.name} is not shown: ${text.slice(2)}`;
    byId("status").className = "bad";
  } else if (/^(\s*(#.*)?\n)*\s*steps\s/.test(text)) {
    page.example.inputs = [...page.example.inputs.filter(inputs => inputs.name !== name), { name, text }];
    listScripts(name);
    restart();
  } else {
    load({ name, text, inputs: [] });
    byId("example").value = "";
  }
}

/** Colours of the light scheme in place of the variables, so that a saved picture needs no page. */
function withColours(svg) {
  const style = getComputedStyle(document.documentElement);
  const value = name => style.getPropertyValue(name).trim().replace(/^light-dark\(\s*([^,]+),.*$/, "$1");
  return svg.replace(/var\((--[\w-]+)\)/g, (_, name) => value(name).replaceAll('"', "'"));
}

/** The queues if the road is open, else the junction above the timeline of the whole run. */
function picture() {
  const { run } = page;
  if (page.view === "road" && page.road?.points.length > 0) {
    return withColours(roadPicture(run.site, page.road.points));
  }
  const shown = document.createElement("div");
  shown.innerHTML = junctionPicture(run.site, { width: 1000, height: 420 });
  colour(shown, run);
  const top = shown.firstChild;
  const width = Math.max(1000, 220 + run.now);
  const lines = timelinePicture(run, { from: 0, to: Math.max(run.now, 300), width, room: 0 });
  const tall = Number(top.getAttribute("height"));
  const all = tall + 16 + Number(/height="([\d.]+)"/.exec(lines)[1]);
  const moved = lines.replace("<svg ", `<svg y="${tall + 16}" `);
  return withColours(`<svg xmlns="http://www.w3.org/2000/svg" viewBox="0 0 ${width} ${all}" width="${width}" height="${all}">` +
    `<rect width="100%" height="100%" fill="var(--panel)"/>${new XMLSerializer().serializeToString(top)}${moved}</svg>`);
}
