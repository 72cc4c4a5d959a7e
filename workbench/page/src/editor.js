// The site text with line numbers, and its mistakes, refusals and warnings at their lines.
"use strict";

const SEVERITIES = {
  error: { sign: "✕", word: "mistake" },
  refusal: { sign: "✕", word: "refusal" },
  warning: { sign: "!", word: "warning" },
  other: { sign: "→", word: "see also" },
  note: { sign: "i", word: "note" },
};

const escaped = text => String(text).replace(/[&<>"]/g, letter => `&#${letter.charCodeAt(0)};`);

class Editor {
  constructor(changed) {
    this.area = document.getElementById("text");
    this.paint = document.getElementById("paint");
    this.gutter = document.getElementById("gutter");
    this.list = document.getElementById("messages");
    this.messages = [];
    this.area.addEventListener("input", () => changed(this.area.value));
    this.area.addEventListener("scroll", () => this.scrolled());
  }

  get text() {
    return this.area.value;
  }

  set text(text) {
    this.area.value = text;
    this.area.scrollTop = this.area.scrollLeft = 0;
  }

  scrolled() {
    const { scrollTop, scrollLeft } = this.area;
    this.paint.style.transform = `translate(${-scrollLeft}px, ${-scrollTop}px)`;
    this.gutter.style.transform = `translateY(${-scrollTop}px)`;
  }

  /** Shows the messages of the text. */
  show(messages) {
    this.messages = messages;
    const byLine = new Map();
    for (const message of messages) {
      const line = message.span.line;
      byLine.set(line, [...(byLine.get(line) ?? []), message]);
    }
    const lines = this.text.split("\n");
    this.gutter.innerHTML = lines.map((_, at) => gutterLine(at + 1, byLine.get(at + 1))).join("");
    this.paint.innerHTML = lines.map((line, at) => paintedLine(line, byLine.get(at + 1) ?? [])).join("");
    this.list.replaceChildren(...messages.map(message => this.item(message)));
    this.scrolled();
  }

  item({ severity, span, text }) {
    const { sign, word } = SEVERITIES[severity];
    const item = document.createElement("li");
    const button = document.createElement("button");
    button.className = severity;
    button.innerHTML = `<b>${span.line}</b><i>${sign}</i><span>${escaped(text)}</span>`;
    button.setAttribute("aria-label", `Line ${span.line}, ${word}: ${text}`);
    button.addEventListener("click", () => this.goTo(span));
    item.append(button);
    return item;
  }

  /** Puts the cursor on a place of the text and shows its line. */
  goTo({ line, column, length }) {
    const before = this.text.split("\n").slice(0, line - 1).join("\n");
    const start = before.length + (line > 1 ? 1 : 0) + column - 1;
    this.area.focus();
    this.area.setSelectionRange(start, start + length);
    const height = parseFloat(getComputedStyle(this.area).lineHeight);
    this.area.scrollTop = Math.max(0, (line - 1) * height - this.area.clientHeight / 3);
  }
}

/** The worst message of a line comes first in this order. */
const worst = messages => ["error", "refusal", "other", "warning", "note"]
  .find(severity => messages.some(message => message.severity === severity));

function gutterLine(number, messages) {
  if (!messages) return `<div>${number}</div>`;
  const severity = worst(messages);
  const title = escaped(messages.map(message => message.text).join("\n"));
  return `<div class="${severity}" title="${title}"><i>${SEVERITIES[severity].sign}</i>${number}</div>`;
}

/** A line with its heading or comment in their colours, and each place of a message underlined. */
function paintedLine(line, messages) {
  const comment = line.indexOf("#");
  const kinds = Array.from(line, (_, at) => comment >= 0 && at >= comment ? "comment" : "");
  if (/^[a-z-]+\s*(#.*)?$/.test(line)) kinds.fill("heading", 0, comment >= 0 ? comment : line.length);
  for (const { span, severity } of messages) {
    kinds.fill(severity, span.column - 1, span.column - 1 + span.length);
  }
  let html = "";
  const letters = Array.from(line);
  for (let at = 0, next; at < letters.length; at = next) {
    for (next = at; next < letters.length && kinds[next] === kinds[at]; next++);
    html += `<span class="${kinds[at]}">${escaped(letters.slice(at, next).join(""))}</span>`;
  }
  return `<div class="${messages.length ? worst(messages) : ""}">${html || " "}</div>`;
}
