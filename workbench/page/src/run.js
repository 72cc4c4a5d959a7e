// One run of a site: the state as the library keeps it, and what was shown in each step.
"use strict";

/** A value over time, kept as the steps in which it changes. Steps count from 1. */
class Track {
  constructor() {
    this.starts = [];
    this.values = [];
  }

  put(step, value) {
    if (this.values.at(-1) === value) return;
    this.starts.push(step);
    this.values.push(value);
  }

  /** The place of the span that holds a step, or -1. */
  placeOf(step) {
    let low = 0, high = this.starts.length;
    while (low < high) {
      const middle = (low + high) >> 1;
      if (this.starts[middle] <= step) low = middle + 1;
      else high = middle;
    }
    return low - 1;
  }

  at(step) {
    return this.values[this.placeOf(step)];
  }

  /** The spans between two steps as [first, last, value]; `now` is the last step of the run. */
  spans(from, to, now) {
    const found = [];
    for (let at = Math.max(0, this.placeOf(from)); at < this.starts.length && this.starts[at] <= to; at++) {
      found.push([this.starts[at], (this.starts[at + 1] ?? now + 1) - 1, this.values[at]]);
    }
    return found;
  }
}

const tracks = count => Array.from({ length: count }, () => new Track());

class Run {
  /** A run of accepted bytes, before its first step. */
  constructor(library, site, bytes, text) {
    Object.assign(this, { library, site, bytes, text });
    this.wanted = bytes;  // the bytes of the last text that was adopted; they differ from `bytes` in times only
    this.bound = library.waitBound(bytes).value;
    this.waits = library.waits(bytes);  // of each phase, then of each movement, by the times that rule
    this.ruledSince = 0;                // the step from which these times rule
    this.state = library.fresh(bytes);
    this.colours = new Uint8Array(site.groups.length);
    this.now = 0;
    this.inputs = 0n;
    this.down = 0n;     // pressed by a pointer
    this.held = 0n;     // held until released
    this.clicked = 0n;  // for the next step alone
    this.script = [];   // the inputs of a script, one for each step
    this.position = new Track();
    this.groups = tracks(site.groups.length);
    this.detectors = tracks(site.detectors.length);
    this.buttons = tracks(site.movements.length);
    this.locks = tracks(site.phases.length);
    this.presses = tracks(site.movements.length);
  }

  get phase() { return this.state[0]; }
  get interval() { return this.state[1]; }
  get age() { return twoBytes(this.state, 2); }
  get target() { return this.state[6] ? this.state[7] : null; }
  get timesWait() { return this.state[187] !== 0; }
  stage(movement) { return this.state[14 + 3 * movement]; }

  /** Why the phase holds, in the library's words. */
  get why() {
    return this.now === 0 ? "" : this.library.why(this.bytes, this.state, this.inputs);
  }

  /** One step of 0.1 s. */
  step() {
    const inputs = this.down | this.held | this.clicked | (this.script[this.now] ?? 0n);
    const changes = this.timesWait;
    const { number, value } = this.library.step(this.bytes, this.state, inputs, this.colours);
    if (number !== 0) throw new Error(`step ${this.now + 1} is refused with ${number}`);
    this.now += 1;
    this.inputs = inputs;
    this.clicked = 0n;
    this.bound = value;
    if (changes && !this.timesWait) Object.assign(this, { waits: this.library.waits(this.wanted), ruledSince: this.now });
    this.record();
  }

  record() {
    const step = this.now;
    const bit = at => Number(this.inputs >> BigInt(at) & 1n);
    this.position.put(step, this.phase << 3 | this.interval);
    this.groups.forEach((track, at) => track.put(step, this.colours[at]));
    this.detectors.forEach((track, at) => track.put(step, bit(at)));
    this.buttons.forEach((track, at) => track.put(step, bit(FIRST_BUTTON + at)));
    this.locks.forEach((track, at) => track.put(step, this.state[12] >> at & 1));
    this.presses.forEach((track, at) => track.put(step, this.state[13] >> at & 1));
  }

  /** How long a demand waited that was there from a first to a last step: it is met in the step behind the last. */
  waited(first, last) {
    return Math.min(last + 1, this.now) - first;
  }

  /** Whoever may wait: each phase and each movement, with its track and its own wait. */
  get waiters() {
    const { phases, movements } = this.site;
    return [
      ...this.locks.map((track, at) => ({ name: `phase ${phases[at].letter}`, track, wait: this.waits[at] })),
      ...this.presses.map((track, at) => ({ name: `${movements[at].name} walk`, track, wait: this.waits[phases.length + at] })),
    ];
  }

  /** The demands that wait: what, since which step, and the wait of the phase or movement; null if other times have ruled meanwhile. */
  get demands() {
    return this.waiters.filter(({ track }) => track.values.at(-1) === 1).map(({ name, track, wait }) => {
      const since = track.starts.at(-1);
      return { name, since, waited: this.waited(since, this.now), wait: since >= this.ruledSince ? wait : null };
    });
  }

  /** What was occupied and pressed, as an input script. */
  get inputScript() {
    const rows = [`steps ${this.now}`];
    const add = (list, word) => list.forEach((track, at) => {
      for (const [first, last, on] of track.spans(1, this.now, this.now)) {
        if (on) rows.push(`${first === last ? first : `${first}..${last}`} ${word} ${at}`);
      }
    });
    add(this.detectors, "detector");
    add(this.buttons, "button");
    return rows.join("\n") + "\n";
  }

  /** The trace as the trace program prints it. */
  get trace() {
    const rows = ["step phase interval groups"];
    for (let step = 1; step <= this.now; step++) {
      const position = this.position.at(step);
      const colours = this.groups.map(track => COLOUR_LETTERS[track.at(step)]).join("");
      rows.push(`${step} ${letterOf(position >> 3)} ${INTERVAL_LETTERS[position & 7]} ${colours}`);
    }
    return rows.join("\n") + "\n";
  }
}
