// Screenshots of each tab in both schemes and two sizes, in the ordinary font of the tests: target/page/*.png.
"use strict";

const path = require("node:path");
const fs = require("node:fs");
const { Browser, FONTS } = require("./browser.js");

const ROOT = path.resolve(__dirname, "../../..");
const OUT = path.join(ROOT, "target/page");
const SIZES = [[1280, 800], [1920, 1080]];
const SITES = [["four_arms", 640], ["crossings", 700], ["largest", 900]];

async function pictures(browser) {
  for (const [width, height] of SIZES) {
    await browser.size(width, height);
    for (const scheme of ["light", "dark"]) {
      await browser.scheme(scheme);
      for (const [site, steps] of SITES) {
        await browser.value(`loadExample("${site}"), choose("junction"), steps(${steps})`);
        for (const tab of ["junction", "conflicts", "waits", "road"]) {
          if (tab !== "junction" && site !== "four_arms" && (scheme === "dark" || width > 1280)) continue;
          await browser.click(`#tab-${tab}`);
          if (tab === "road" && site === "four_arms") await browser.until("page.road?.part === 1", 60);
          await browser.drawn();
          await browser.screenshot(path.join(OUT, `${site}-${tab}-${scheme}-${width}.png`));
        }
      }
    }
  }
  await browser.scheme("light");
  await browser.size(1280, 800);
  await browser.value("loadExample('four_phases'), choose('junction'), steps(300)");
  await browser.value("page.editor.text = page.editor.text.replace('V5:  V2 V9', 'V5:  V2').replace('240   95   35   43', '240   95   35   4x'), textChanged()");
  await browser.screenshot(path.join(OUT, "mistake-light-1280.png"));
  await browser.value("page.editor.text = page.editor.text.replace('4x', '43'), textChanged()");
  await browser.value("document.querySelector('#messages .refusal').click()");
  await browser.screenshot(path.join(OUT, "refused-light-1280.png"));
}

(async () => {
  fs.mkdirSync(OUT, { recursive: true });
  const browser = await Browser.start();
  try {
    await browser.open("file://" + path.join(ROOT, "target/workbench.html"), 1280, 800);
    await browser.font(FONTS.ordinary);
    await pictures(browser);
    if (browser.errors.length > 0) throw new Error(browser.errors.join("\n"));
  } finally {
    await browser.close();
  }
})().catch(error => { console.error(error.message); process.exit(1); });
