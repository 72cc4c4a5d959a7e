// The proved library and the reader of site texts, both as WebAssembly. Every verdict,
// colour, wait, queue and panel line of the page is an answer of one of these calls.
"use strict";

const STATE_BYTES = 336;
const RESULT_BYTES = 4;
const MOST_WAIT_BYTES = 30;
const FIRST_BUTTON = 48;
const COLOUR_LETTERS = "RYGF";
const COLOUR_NAMES = ["red", "yellow", "green", "flashing red"];
const INTERVAL_LETTERS = "SLMGEYR";
const INTERVAL_NAMES = ["start red", "late start", "minimum green", "running", "early cut-off green", "yellow", "all-red"];
const STAGE_NAMES = ["idle", "walk", "first clearance", "second clearance"];
const PHASE_SETTINGS = ["L", "M", "X", "G", "Y", "R"];
const MOVEMENT_SETTINGS = ["W", "C1", "C2"];

const letterOf = phase => String.fromCharCode(65 + phase);
const seconds = steps => (steps / 10).toFixed(1);
const twoBytes = (bytes, at) => bytes[at] | bytes[at + 1] << 8;

/** A module that the build placed in the page as base64. */
async function moduleIn(id) {
  const text = atob(document.getElementById(id).textContent.trim());
  const bytes = Uint8Array.from(text, letter => letter.charCodeAt(0));
  const { instance } = await WebAssembly.instantiate(bytes);
  return instance.exports;
}

/** The calls of include/willowera.h. */
class Library {
  constructor(exports) {
    this.exports = exports;
  }

  /** Calls an export. A buffer becomes its address and its length, and is read back after the call. */
  call(name, ...given) {
    const { memory, __heap_base } = this.exports;
    const buffers = given.filter(one => one instanceof Uint8Array);
    const needed = __heap_base.value + buffers.reduce((sum, one) => sum + one.length, 0);
    const missing = needed - memory.buffer.byteLength;
    if (missing > 0) memory.grow(Math.ceil(missing / 65536));
    const all = new Uint8Array(memory.buffer);
    let free = __heap_base.value;
    const places = buffers.map(buffer => {
      all.set(buffer, free);
      free += buffer.length;
      return free - buffer.length;
    });
    const plain = given.flatMap(one =>
      one instanceof Uint8Array ? [places[buffers.indexOf(one)], BigInt(one.length)] : [one]);
    const answer = this.exports[name](...plain);
    buffers.forEach((buffer, at) => buffer.set(all.subarray(places[at], places[at] + buffer.length)));
    return { number: Number(answer & 0xffn), value: Number(answer >> 8n) };
  }

  read(bytes) {
    return this.call("willowera_read", bytes);
  }

  waitBound(bytes) {
    return this.call("willowera_wait_bound", bytes);
  }

  /** The wait of each phase, then of each movement, in steps. */
  waits(bytes) {
    const buffer = new Uint8Array(MOST_WAIT_BYTES);
    const { number, value } = this.call("willowera_waits", bytes, buffer);
    if (number !== 0) throw new Error(`the waits are refused with ${number}`);
    return Array.from({ length: value / 2 }, (_, at) => twoBytes(buffer, 2 * at));
  }

  fresh(bytes) {
    const state = new Uint8Array(STATE_BYTES);
    this.call("willowera_fresh", bytes, state);
    return state;
  }

  step(bytes, state, inputs, colours) {
    return this.call("willowera_step", bytes, state, inputs, colours);
  }

  retime(bytes, state, newBytes) {
    return this.call("willowera_retime", bytes, state, newBytes);
  }

  /** Why the phase holds; empty in other intervals than running. */
  why(bytes, state, inputs) {
    const line = new Uint8Array(107);
    const { number, value } = this.call("willowera_why", bytes, state, inputs, line);
    return number === 0 ? new TextDecoder().decode(line.subarray(0, value)) : "";
  }

  /** Offset and length of the body of a section, or null. */
  section(bytes, kind) {
    const { number, value } = this.call("willowera_section", bytes, kind);
    return number === 0 ? { offset: value % 2 ** 32, length: Math.floor(value / 2 ** 32) } : null;
  }

  /** Queued and gone vehicles of each stream after a number of steps, or the refusal. */
  road(bytes, streams, steps) {
    const packed = new Uint8Array(streams.flatMap(({ detector, group, rate }) => [detector, group, rate & 255, rate >> 8]));
    const results = new Uint8Array(RESULT_BYTES * streams.length);
    const { number } = this.call("willowera_road", bytes, packed, steps, new Uint8Array(STATE_BYTES), results);
    const counts = streams.map((_, at) => ({ queued: twoBytes(results, 4 * at), gone: twoBytes(results, 4 * at + 2) }));
    return { number, counts };
  }

  yellow(speed, grade) {
    return this.call("willowera_yellow", speed, grade);
  }
}

/** The calls of workbench/site-wasm. */
class SiteTexts {
  constructor(exports) {
    this.exports = exports;
  }

  /** Calls an export. A text or a buffer becomes its address and its length. The answer is a text. */
  call(name, ...given) {
    const { memory, site_alloc, site_free, site_answer } = this.exports;
    const taken = [];
    const plain = given.flatMap(one => {
      if (typeof one === "number") return [one];
      const bytes = typeof one === "string" ? new TextEncoder().encode(one) : one;
      const at = site_alloc(bytes.length);
      taken.push([at, bytes.length]);
      new Uint8Array(memory.buffer).set(bytes, at);
      return [at, bytes.length];
    });
    const length = this.exports[name](...plain);
    const answer = new TextDecoder().decode(new Uint8Array(memory.buffer, site_answer(), length));
    for (const [at, size] of taken) site_free(at, size);
    return answer;
  }

  parse(text) {
    return JSON.parse(this.call("site_parse", text));
  }

  tell(text, number, place) {
    return JSON.parse(this.call("site_tell", text, number, place));
  }

  warnings(text, bound, yellows) {
    return JSON.parse(this.call("site_warnings", text, bound, yellows));
  }

  /** What the wait of each phase and movement is made of, by the text alone. */
  waits(text) {
    return JSON.parse(this.call("site_waits", text));
  }

  inputs(text, script) {
    return JSON.parse(this.call("site_inputs", text, script));
  }

  show(bytes) {
    return this.call("site_show", bytes);
  }
}
