// A small client of the DevTools protocol: chromium without a window, over two pipes.
"use strict";

const { spawn } = require("node:child_process");
const fs = require("node:fs");
const os = require("node:os");
const path = require("node:path");

/** The families of tests and screenshots; `tools/install.sh browser` installs them. */
const FONTS = { narrow: "Liberation Sans Narrow", ordinary: "Liberation Sans", wide: "DejaVu Sans" };

class Browser {
  /** Starts chromium with an empty profile. */
  static async start() {
    const browser = new Browser();
    browser.profile = fs.mkdtempSync(path.join(os.tmpdir(), "page-test-"));
    const options = ["--headless=new", "--no-sandbox", "--disable-gpu", "--disable-dev-shm-usage", "--hide-scrollbars", "--no-first-run",
      "--remote-debugging-pipe", `--user-data-dir=${browser.profile}`, "about:blank"];
    browser.process = spawn("chromium", options, { stdio: ["ignore", "ignore", "ignore", "pipe", "pipe"] });
    browser.next = 1;
    browser.waiting = new Map();
    browser.events = [];
    browser.process.on("exit", () => browser.ended());
    browser.listen(browser.process.stdio[4]);
    return browser;
  }

  /** Messages are JSON with a zero byte behind each. */
  listen(pipe) {
    let rest = Buffer.alloc(0);
    pipe.on("data", data => {
      rest = Buffer.concat([rest, data]);
      for (let end; (end = rest.indexOf(0)) >= 0; rest = rest.subarray(end + 1)) {
        this.receive(JSON.parse(rest.subarray(0, end).toString()));
      }
    });
  }

  receive(message) {
    const waiting = this.waiting.get(message.id);
    if (!waiting) return this.events.push(message);
    this.waiting.delete(message.id);
    if (message.error) waiting.reject(new Error(`${waiting.method}: ${message.error.message}`));
    else waiting.resolve(message.result);
  }

  ended() {
    for (const { reject, method } of this.waiting.values()) reject(new Error(`${method}: chromium ended`));
  }

  send(method, params = {}) {
    return new Promise((resolve, reject) => {
      const id = this.next++;
      this.waiting.set(id, { resolve, reject, method });
      this.process.stdio[3].write(JSON.stringify({ id, method, params, sessionId: this.session }) + "\0");
    });
  }

  /** Opens a page of a size in place of the last one and waits until it is ready. */
  async open(url, width, height) {
    this.session = undefined;
    if (this.target) await this.send("Target.closeTarget", { targetId: this.target });
    const { targetId } = await this.send("Target.createTarget", { url: "about:blank" });
    this.target = targetId;
    this.session = (await this.send("Target.attachToTarget", { targetId, flatten: true })).sessionId;
    for (const domain of ["Page", "Runtime", "Accessibility", "Log", "Network", "DOM", "CSS"]) await this.send(`${domain}.enable`);
    await this.size(width, height);
    await this.send("Page.navigate", { url });
    await this.until("document.body?.dataset.ready === 'yes'");
  }

  size(width, height) {
    return this.send("Emulation.setDeviceMetricsOverride", { width, height, deviceScaleFactor: 1, mobile: false });
  }

  /** Waits until the page is drawn as it is, also what it draws anew because a size has changed. */
  drawn() {
    return this.value("new Promise(resolve => requestAnimationFrame(() => requestAnimationFrame(() => setTimeout(resolve))))");
  }

  scheme(name) {
    return this.send("Emulation.setEmulatedMedia", { features: [{ name: "prefers-color-scheme", value: name }] });
  }

  /**
   * Shows the page in a family. The browser takes another family for one that is not installed and does not say so. Therefore it is asked
   * which one it draws with: the page's title, and a label of the timeline, which is a picture.
   */
  async font(family) {
    await this.value(`document.documentElement.style.setProperty("--sans", ${JSON.stringify(JSON.stringify(family))})`);
    await this.drawn();
    for (const selector of ["h1", "#rows .label"]) {
      const used = (await this.fontsOf(selector)).join(" and ");
      if (used !== family) throw new Error(`the font ${family} is not installed: tools/install.sh browser (${selector} is drawn with ${used || "none"})`);
    }
  }

  /** The families that the browser draws an element with. */
  async fontsOf(selector) {
    const { fonts } = await this.send("CSS.getPlatformFontsForNode", { nodeId: await this.node(selector) });
    return [...new Set(fonts.map(font => font.familyName))];
  }

  /** The number of an element in the protocol. */
  async node(selector) {
    const { root } = await this.send("DOM.getDocument");
    return (await this.send("DOM.querySelector", { nodeId: root.nodeId, selector })).nodeId;
  }

  /** The value of an expression in the page. */
  async value(expression) {
    const { result, exceptionDetails } = await this.send("Runtime.evaluate", { expression, returnByValue: true, awaitPromise: true });
    if (exceptionDetails) throw new Error(`${expression.slice(0, 80)}: ${exceptionDetails.exception?.description ?? exceptionDetails.text}`);
    return result.value;
  }

  async until(expression, seconds = 20) {
    for (const end = Date.now() + 1000 * seconds; Date.now() < end;) {
      if (await this.value(expression)) return;
      await new Promise(resolve => setTimeout(resolve, 50));
    }
    throw new Error(`never true: ${expression}`);
  }

  async key(key, code, modifiers = 0, text) {
    await this.send("Input.dispatchKeyEvent", { type: text ? "keyDown" : "rawKeyDown", key, code: key, windowsVirtualKeyCode: code, modifiers, text });
    await this.send("Input.dispatchKeyEvent", { type: "keyUp", key, code: key, windowsVirtualKeyCode: code, modifiers });
  }

  /** The middle of an element in the window. */
  middle(selector) {
    return this.value(`(() => { const box = document.querySelector(${JSON.stringify(selector)}).getBoundingClientRect();
      return { x: box.x + box.width / 2, y: box.y + box.height / 2 }; })()`);
  }

  /** Presses the mouse in the middle of an element, and releases it. */
  async click(selector) {
    const place = await this.middle(selector);
    for (const type of ["mousePressed", "mouseReleased"]) await this.send("Input.dispatchMouseEvent", { type, ...place, button: "left", clickCount: 1 });
  }

  /** Types a text where the cursor is. */
  type(text) {
    return this.send("Input.insertText", { text });
  }

  /** Chooses a file in a file input, as the dialogue of the system does. */
  async chooseFile(selector, file) {
    await this.send("DOM.setFileInputFiles", { nodeId: await this.node(selector), files: [file] });
  }

  /** Clicks on an element that saves a file; the content of the file. */
  async saved(selector, name, folder) {
    const file = path.join(folder, name);
    fs.rmSync(file, { force: true });
    const session = this.session;
    this.session = undefined;
    await this.send("Browser.setDownloadBehavior", { behavior: "allow", downloadPath: folder });
    this.session = session;
    await this.click(selector);
    for (const end = Date.now() + 5000; Date.now() < end && !fs.existsSync(file);) await new Promise(resolve => setTimeout(resolve, 30));
    return fs.readFileSync(file);
  }

  async screenshot(file) {
    const { data } = await this.send("Page.captureScreenshot", { format: "png" });
    fs.writeFileSync(file, Buffer.from(data, "base64"));
  }

  /** What the page reported as an error. */
  get errors() {
    const exception = ({ method, params }) => method === "Runtime.exceptionThrown" ? [params.exceptionDetails.exception?.description ?? params.exceptionDetails.text] : [];
    const logged = ({ method, params }) => method === "Log.entryAdded" && params.entry.level === "error" ? [params.entry.text] : [];
    return this.events.flatMap(event => [...exception(event), ...logged(event)]);
  }

  /** The addresses that the page asked for. */
  get requests() {
    return this.events.flatMap(({ method, params }) => method === "Network.requestWillBeSent" ? [params.request.url] : []);
  }

  async close() {
    const ended = new Promise(resolve => this.process.once("exit", resolve));
    this.process.kill();
    await ended;
    fs.rmSync(this.profile, { recursive: true, force: true, maxRetries: 5 });
  }
}

module.exports = { Browser, FONTS };
