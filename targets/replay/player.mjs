// Replays a recording on the library as a WebAssembly module:
//
//     node player.mjs willowera.wasm RECORDING
//
// README.md has the format. Exits with 0 if every call agrees, 1 if one differs, 2 if the recording is not whole, 3 if a call traps.
import { readFileSync } from 'node:fs';

const HEADER = 32, CHECK = 4, FILL = 0, PUT = 1, FIRST_CALL = 2, ALIGNMENT = 16, PAGE = 65536;

class NotWhole extends Error {}

function need(truth, why) {
  if (!truth) throw new NotWhole(why);
}

// The CRC-32 of bytes: reflected polynomial 0xEDB88320, all ones at first, inverted at the end.
function crc(bytes) {
  const table = Uint32Array.from({ length: 256 }, (_, i) => {
    for (let bit = 0; bit < 8; bit++) i = i & 1 ? (i >>> 1) ^ 0xedb88320 : i >>> 1;
    return i;
  });
  let check = ~0;
  for (const byte of bytes) check = (check >>> 8) ^ table[(check ^ byte) & 255];
  return ~check >>> 0;
}

// The bytes of a recording, taken one after the other.
class Tape {
  constructor(bytes, end) {
    this.bytes = bytes;
    this.view = new DataView(bytes.buffer, bytes.byteOffset, bytes.length);
    this.end = end;
    this.at = 0;
  }

  take(count) {
    need(count <= this.end - this.at, 'it ends inside an entry');
    this.at += count;
    return this.at - count;
  }

  byte() { return this.bytes[this.take(1)]; }
  u32() { return this.view.getUint32(this.take(4), true); }
  u64() { return this.view.getBigUint64(this.take(8), true); }

  text() {
    const length = this.byte(), at = this.take(length);
    return String.fromCharCode(...this.bytes.subarray(at, at + length));
  }

  // Seven bits a byte, the lowest first; the last byte is below 128. 49 bits fit a number.
  number() {
    let low = 0, high = 0n;
    for (let i = 0; i < 10; i++) {
      const byte = this.byte();
      if (i < 7) low += (byte & 127) * 2 ** (7 * i);
      else high |= BigInt(byte & 127) << BigInt(7 * i);
      if (byte < 128) break;
    }
    return BigInt.asUintN(64, BigInt(low) | high);
  }
}

function open(file) {
  const bytes = readFileSync(file);
  need(bytes.length >= HEADER + CHECK, 'it ends too early');
  const end = bytes.length - CHECK;
  need(crc(bytes.subarray(0, end)) === bytes.readUInt32LE(end), 'its check value is wrong');
  need(BigInt(end - HEADER) === bytes.readBigUInt64LE(HEADER - 8), 'it has another length than its header states');
  return new Tape(bytes, end);
}

// The library, with an arena in its memory behind everything of its own.
class Player {
  constructor(module, tape) {
    this.exports = new WebAssembly.Instance(new WebAssembly.Module(module), {}).exports;
    this.tape = tape;
    this.readHeader();
    const { memory, __heap_base: heap } = this.exports;
    this.base = Math.ceil(heap.value / ALIGNMENT) * ALIGNMENT;
    const missing = this.base + this.arenaBytes - memory.buffer.byteLength;
    if (missing > 0) memory.grow(Math.ceil(missing / PAGE));
    this.arena = new Uint8Array(memory.buffer, this.base, this.arenaBytes);
    this.words = new Uint32Array(memory.buffer, this.base, this.arenaBytes / 4);
    this.replayed = 0;
    this.differed = 0;
    this.double = new DataView(new ArrayBuffer(8));
  }

  readHeader() {
    const { tape } = this;
    need(String.fromCharCode(...tape.bytes.subarray(tape.take(8), 8)) === 'WILLPLAY', 'it does not begin with WILLPLAY');
    need(tape.u32() === 1, 'its format is not version 1');
    this.arenaBytes = tape.u32();
    this.stated = tape.u64();
    tape.u64();
    this.calls = Array.from({ length: tape.byte() }, () => {
      const name = tape.text(), letters = tape.text();
      need(typeof this.exports[name] === 'function', `the module does not have the call ${name}`);
      need(this.exports[name].length === letters.length, `${name} of the module has another number of arguments`);
      return { name, letters, make: this.exports[name] };
    });
  }

  // An argument as the module takes it. A pointer of the recording: 0 is null, 1 the address of all ones, others are offsets in the arena.
  argument(letter) {
    const number = this.tape.number();
    switch (letter) {
      case 'l':
      case 'q': return number;
      case 'p':
        need(number <= this.arenaBytes + 2, 'a buffer is outside the arena');
        return number < 2n ? -Number(number) : this.base + Number(number) - 2;
      case 'd':
        this.double.setBigUint64(0, number);
        return this.double.getFloat64(0);
      default: return Number(number);
    }
  }

  sum() {
    let sum = 0;
    for (const word of this.words) {
      const mixed = sum ^ word;
      sum = Math.imul((mixed << 13) | (mixed >>> 19), 0x9e3779b1);
    }
    return sum >>> 0;
  }

  // Makes one call and compares. The calls count from 1.
  call({ name, letters, make }) {
    const words = Array.from(letters, (letter) => this.argument(letter));
    const expected = this.tape.number(), expectedSum = this.tape.u32();
    this.replayed++;
    const answer = make(...words);
    // A number of 32 bits comes signed.
    const got = typeof answer === 'bigint' ? BigInt.asUintN(64, answer) : BigInt(answer >>> 0);
    const gotSum = this.sum();
    if (got === expected && gotSum === expectedSum) return;
    if (this.differed++ > 0) return;
    const what = got === expected
      ? `the answer agrees; sum of the arena expected ${hex(expectedSum)}, got ${hex(gotSum)}`
      : `answer expected ${hex(expected)}, got ${hex(got)}`;
    console.log(`call ${this.replayed} (${name}): ${what}`);
  }

  entry() {
    const { tape, arena } = this;
    const kind = tape.byte();
    if (kind === FILL) return arena.fill(tape.byte());
    if (kind === PUT) {
      const at = Number(tape.number()), length = Number(tape.number());
      need(at + length <= this.arenaBytes, 'bytes are put outside the arena');
      const from = tape.take(length);
      return arena.set(tape.bytes.subarray(from, from + length), at);
    }
    need(kind - FIRST_CALL < this.calls.length, 'an entry is of no known kind');
    return this.call(this.calls[kind - FIRST_CALL]);
  }

  replay() {
    while (this.replayed < this.stated) this.entry();
    need(this.tape.at === this.tape.end, 'it has other calls than its header states');
  }
}

function hex(number) {
  return `0x${number.toString(16).padStart(16, '0')}`;
}

function main(module, recording) {
  let player, status = 0;
  try {
    player = new Player(readFileSync(module), open(recording));
    player.replay();
  } catch (error) {
    // Anything else is a trap of the module, or of no module.
    const damaged = error instanceof NotWhole;
    console.log(damaged ? `the recording is not whole: ${error.message}` : `call ${player?.replayed ?? 0}: ${error}`);
    status = damaged ? 2 : 3;
  }
  const { replayed = 0, differed = 0 } = player ?? {};
  console.log(`${replayed} calls replayed, ${differed} differed`);
  return status || (differed > 0 ? 1 : 0);
}

if (process.argv.length !== 4) {
  console.error('usage: node player.mjs willowera.wasm RECORDING');
  process.exit(2);
}
process.exit(main(process.argv[2], process.argv[3]));
