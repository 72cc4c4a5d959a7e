// What a site text is worth: its mistakes, or the verdict of the library with its warnings.
"use strict";

/**
 * Checks a text: `messages` for its lines, and, if the library accepts it, `site`, `bytes`
 * and `bound`. `status` is one line for the header.
 */
function checkText(library, texts, text) {
  const { mistakes, site, built, speeds } = texts.parse(text);
  if (mistakes.length > 0) {
    const count = mistakes.length === 1 ? "1 mistake" : `${mistakes.length} mistakes`;
    return { messages: mistakes, site: null, status: `${count} in the text`, fine: false };
  }
  const bytes = new Uint8Array(built.bytes);
  const { number, value } = library.read(bytes);
  if (number !== 0) {
    const told = texts.tell(text, number, value);
    const others = told.others.map(other => ({ ...other, severity: "other" }));
    return { messages: [told, ...others], site: null, status: `refused: ${number} at byte ${value}`, fine: false };
  }
  const bound = library.waitBound(bytes).value;
  const yellows = speeds.map(([speed, grade]) => [speed, grade, library.yellow(speed, grade)])
    .filter(([, , yellow]) => yellow.number === 0)
    .map(([speed, grade, yellow]) => `${speed} ${grade} ${yellow.value}\n`);
  const messages = [...roadMessages(library, texts, text, site, bytes), ...texts.warnings(text, bound, yellows.join(""))];
  const status = `accepted · ${bytes.length} bytes · wait bound ${seconds(bound)} s`;
  return { messages, site, bytes, bound, status, fine: true };
}

/** The refusal of the road, if the text has streams and the library refuses them. */
function roadMessages(library, texts, text, site, bytes) {
  if (site.streams.length === 0) return [];
  const { number } = library.road(bytes, site.streams, site.steps);
  return number === 0 ? [] : [texts.tell(text, number, 0)];
}
