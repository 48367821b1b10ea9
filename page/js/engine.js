// The library's module, called from JavaScript: addresses and lengths are BigInts, since its memory has 64-bit addresses.

import { findings_in } from './findings.js';
import { number_at, read_json } from './report.js';

const HANDLE = 16;
const NONE_THERE = 901;
const TOO_SMALL = 902;
const LONGEST_REPLY = 48;
const LONGEST_LINE = 256;
const LONGEST_REASON = 128;
const LONGEST_NAME = 16;
// what stands where in what is told of a function: its number, its regions and windows, each with its length, who has it, and of firmware's
// board what its Command opens
const FUNCTION_ROW = 512, NUMBER_AT = 88, REGIONS_AT = 128, REGION_ROW = 32, WINDOWS_AT = 320, WINDOW_ROW = 24, SEAT_AT = 392, OPENS_AT = 468;
const WINDOW_SPACES = ['io', 'mem', 'pref'];
const ROOM = 1 << 16;
// Made once: of a large board hundreds of registers are read after each line.
export const TO_BYTES = new TextEncoder(), TO_TEXT = new TextDecoder();
const [LINE_FEED, ZERO, NINE, COLON, A] = TO_BYTES.encode('\n09:a');
const SPACE_NUMBERS = { cfg: 0, io: 1, mem: 2 };

export class Engine {
  static async of(bytes) {
    const { instance } = await WebAssembly.instantiate(bytes, {});
    return new Engine(instance.exports);
  }

  constructor(exports) { this.exports = exports; }

  // Runs a call with texts and rooms in the module's memory, and gives them back whatever happens.
  with_rooms(sizes, call) {
    const rooms = sizes.map(size => this.exports.page_room(BigInt(size) + 1n));
    try { return call(...rooms); } finally { for (const room of rooms) this.exports.rattle_dealloc(room); }
  }

  // Runs a call with bytes in the module's memory: where they stand, and how many they are.
  with_bytes(bytes, call) {
    return this.with_rooms([bytes.length], at => { this.bytes(at, bytes.length).set(bytes); return call(at, BigInt(bytes.length)); });
  }

  // All of the memory, of which a view is made anew where it has grown.
  memory() {
    if (!this.view?.byteLength) this.view = new Uint8Array(this.exports.memory.buffer);
    return this.view;
  }

  // A fresh view after each call: the memory may have grown.
  bytes(at, length) { return new Uint8Array(this.exports.memory.buffer, Number(at), length); }

  word(at) { return Number(new DataView(this.exports.memory.buffer).getBigUint64(Number(at), true)); }

  // What a call writes into a room that is large enough: { number, text }, where number is 0 or a refusal's. `size` is that of the first
  // room, since the text is made anew for each.
  told(call, size = ROOM) {
    for (;;) {
      const [number, needed, text] = this.with_rooms([size, 8], (out, length) => {
        this.bytes(length, 8).fill(0);
        const number = call(out, BigInt(size), length);
        const needed = this.word(length);
        return [number, needed, this.bytes(out, number === TOO_SMALL ? 0 : needed).slice()];
      });
      if (number !== TOO_SMALL) return { number, text };
      size = needed;
    }
  }

  // What a call writes of a board file. Some calls take last whether that is JSON.
  written(call, file, ...flags) { return this.with_bytes(file, (...board) => this.told((...rooms) => call(...board, ...rooms, ...flags))); }

  // The report of a board file, as lines and as JSON; nothing where it is refused.
  report(file) { return this.written(this.exports.pciguest_raw_report_in, file, 0); }

  report_json(file) { return this.written(this.exports.pciguest_raw_report_in, file, 1); }

  // What a check says of a board file, which is called board.toml there.
  check(file) { return this.written(this.exports.pciguest_raw_check, file); }

  // What a call makes of a board file, behind a handle: { number, made }, where number is 0 or a refusal's.
  made(call, file, kind) {
    const handle = this.exports.page_room(BigInt(HANDLE));
    this.bytes(handle, HANDLE).fill(0);
    const number = this.with_bytes(file, (...text) => call(handle, ...text));
    if (number !== 0) { this.exports.rattle_dealloc(handle); return { number, made: null }; }
    return { number, made: new kind(this, handle) };
  }

  // A board that is set up, with its guests.
  open(file) { return this.made(this.exports.pciguest_raw_new, file, Machine); }

  // A board at reset, which firmware drives.
  open_at_reset(file) { return this.made(this.exports.pciguest_raw_board_new, file, Driven); }
}

// Of a large board this is asked a thousand times after a line.
function are_same(one, other) {
  for (let at = 0; at < one.length; at += 1) if (one[at] !== other[at]) return false;
  return true;
}

// What is held behind a handle and answers lines.
class Held {
  // Its rooms are made once, as of a large board thousands of calls follow a line.
  constructor(engine, handle) {
    const [text, out, written, row] = [LONGEST_LINE, LONGEST_REPLY, 32, FUNCTION_ROW].map(size => engine.exports.page_room(BigInt(size)));
    Object.assign(this, { engine, handle, text, out, written, row });
  }

  // The reply of one line, with its line feed; nothing for a remark.
  answer(line) {
    if (line.length <= LONGEST_LINE) return this.answer_in(this.text, line);
    return this.engine.with_rooms([line.length], text => this.answer_in(text, line));
  }

  answer_in(text, line) {
    const { engine, out } = this;
    engine.bytes(text, line.length).set(line);
    const number = this.run_in(text, line.length, out, LONGEST_REPLY);
    if (number !== TOO_SMALL) return this.written_in(out, number);
    // an audit, or why a board is not given: nothing has happened, and the room that it needs is told
    const size = engine.word(this.written);
    return engine.with_rooms([size], longer => this.written_in(longer, this.run_in(text, line.length, longer, size)));
  }

  run_in(text, length, out, size) { return this.run_line(this.handle, text, BigInt(length), out, BigInt(size), this.written); }

  // What a line wrote; nothing where it was refused for want of memory.
  written_in(out, number) { return this.engine.bytes(out, number === 0 ? this.engine.word(this.written) : 0).slice(); }

  // Why a line is refused for its words, and which word is wrong: { why, at }. There is no text for any other line.
  explain(line) {
    const { engine, handle, written } = this, call = engine.exports.pciguest_raw_explain_line;
    const { text } = engine.with_bytes(TO_BYTES.encode(line), (...bytes) => engine.told((...rooms) => call(handle, ...bytes, written, ...rooms), LONGEST_REASON));
    return { why: TO_TEXT.decode(text), at: engine.word(written) };
  }

  // The number that a line reads.
  number(line) {
    const reply = TO_TEXT.decode(this.answer(TO_BYTES.encode(line)));
    return BigInt(reply.slice(reply.indexOf(':') + 2).trimEnd());
  }

  // The register of up to four bytes that a line of bytes reads. Of a large board thousands are read after a line, so no text is made of
  // the reply, `NAME: 0x..`.
  register(line) {
    this.engine.memory().set(line, Number(this.text));
    this.run_in(this.text, line.length, this.out, LONGEST_REPLY);
    const reply = this.engine.memory();
    let at = reply.indexOf(COLON, Number(this.out)) + 4, value = 0;
    for (; at < reply.length && reply[at] !== LINE_FEED; at += 1) value = 16 * value + (reply[at] > NINE ? reply[at] - A + 10 : reply[at] - ZERO);
    return value;
  }

  // The place of a guest's name among all names.
  guest(name) {
    const { engine, handle, text, written } = this, bytes = TO_BYTES.encode(name);
    engine.bytes(text, bytes.length).set(bytes);
    engine.exports.pciguest_raw_guest(handle, text, BigInt(bytes.length), written);
    return engine.word(written);
  }

  // The names of all guests, in the order of the file; none where no guest has the board yet.
  guests() {
    const { engine, handle, written } = this, { exports } = engine;
    if (exports.pciguest_raw_guest_count(handle, written) !== 0) return [];
    return Array.from({ length: engine.word(written) }, (_, nth) => TO_TEXT.decode(engine.told((...rooms) => exports.pciguest_raw_guest_name(handle, BigInt(nth), ...rooms), LONGEST_NAME).text));
  }

  // What a call tells of a function, by its place in path order; null behind the last one.
  row_of(call, nth) {
    const { engine, handle, row } = this;
    return call(handle, BigInt(nth), row) === 0 ? new DataView(engine.exports.memory.buffer, Number(row), FUNCTION_ROW) : null;
  }

  // Who has each function of the board, in path order: { guest, slot }, or null.
  seats() {
    const names = this.guests(), found = [];
    for (let told; (told = this.row_of(this.engine.exports.pciguest_raw_function, found.length)) !== null;) {
      const [guest, slot] = [0, 8].map(at => Number(told.getBigUint64(SEAT_AT + at, true)));
      found.push(told.getUint32(SEAT_AT + 16, true) === 0 ? null : { guest: names[guest], slot });
    }
    return found;
  }

  // The image of the machine; null where no guest has the board yet.
  save() {
    const { engine, handle } = this, { number, text } = engine.told((...rooms) => engine.exports.pciguest_raw_save_all(handle, ...rooms));
    return number === 0 ? text : null;
  }

  // Loads the bytes of an image: 0, or the number of why they are refused, and then nothing has changed.
  load(image) { return this.engine.with_bytes(image, (...bytes) => this.engine.exports.pciguest_raw_load_all(this.handle, ...bytes)); }

  // The image of a guest, which a machine of another board can load that has the same functions in the same slots.
  save_guest(name) {
    const { engine, handle } = this, guest = BigInt(this.guest(name));
    return engine.told((...rooms) => engine.exports.pciguest_raw_save(handle, guest, ...rooms)).text;
  }

  // Loads such an image into a guest: 0, or the number of why it is refused.
  load_guest(name, image) {
    const { engine, handle } = this, guest = BigInt(this.guest(name));
    return engine.with_bytes(image, (...bytes) => engine.exports.pciguest_raw_load(handle, guest, ...bytes));
  }

  // Where the region that begins at a base address register of a guest's function stands now: { first, size, space, open },
  // or null where none does.
  region(guest, slot, register) {
    const { engine, handle, written } = this;
    const number = engine.exports.pciguest_raw_region(handle, BigInt(this.guest(guest)), BigInt(slot), register, written);
    if (number !== 0) return null;
    const told = new DataView(engine.exports.memory.buffer, Number(written), 32);
    return { first: told.getBigUint64(0, true), size: told.getBigUint64(8, true), space: told.getUint32(16, true) === 1 ? 'io' : 'mem',
      open: told.getUint32(24, true) !== 0 };
  }

  // Why a guest's access finds what it finds, or nobody, as lines and as JSON. A slot is asked of configuration space alone.
  why(asked) { return this.told_why(0, asked); }

  why_json(asked) { return this.told_why(1, asked); }

  told_why(is_json, { guest, space, slot, place }) {
    const { engine, handle } = this, at = [BigInt(this.guest(guest)), SPACE_NUMBERS[space], slot, place];
    const { number, text } = engine.told((...rooms) => engine.exports.pciguest_raw_why_in(handle, ...at, ...rooms, is_json));
    if (number !== 0) throw new Error(`why is refused: ${number}`);
    return TO_TEXT.decode(text).trimEnd();
  }

  close() {
    this.free(this.handle);
    for (const room of [this.handle, this.text, this.out, this.written, this.row]) this.engine.exports.rattle_dealloc(room);
  }
}

class Machine extends Held {
  run_line(...words) { return this.engine.exports.pciguest_raw_run_line(...words); }

  free(handle) { this.engine.exports.pciguest_raw_free(handle); }
}

// A board that firmware drives, and once a line hands it over, that of its guests.
class Driven extends Held {
  constructor(engine, handle) {
    super(engine, handle);
    this.room = ROOM;
  }

  run_line(...words) { return this.engine.exports.pciguest_raw_board_run_line(...words); }

  free(handle) { this.engine.exports.pciguest_raw_board_free(handle); }

  // The reply to a question, which may have thousands of lines.
  long_reply(question) {
    const { engine, handle, text: line, room } = this, said = TO_BYTES.encode(question);
    engine.bytes(line, said.length).set(said);
    const { text } = engine.told((...rooms) => this.run_line(handle, line, BigInt(said.length), ...rooms), room);
    this.room = Math.max(room, 2 * text.length);
    return TO_TEXT.decode(text).trimEnd();
  }

  // The text of a call that tells what its registers are like; null once the board is given to its guests: it was in order then, and stays so.
  told_by(call, ...flags) {
    const { number, text } = this.engine.told((...rooms) => call(this.handle, ...rooms, this.written, ...flags), this.room);
    if (number !== 0 && number !== NONE_THERE) throw new Error(`what the registers are like is refused: ${number}`);
    this.room = Math.max(this.room, 2 * text.length);
    return number === 0 ? TO_TEXT.decode(text) : null;
  }

  // What is wrong in the registers as they stand: a line for each problem, and one that counts them.
  audit() { return this.told_by(this.engine.exports.pciguest_raw_board_survey, 0, 0); }

  // That and what is lacking, as lines, as JSON, and as values with their lines.
  readiness() { return this.long_reply('host ready'); }

  ready_json() { return this.told_by(this.engine.exports.pciguest_raw_board_survey, 1, 1); }

  // Why an address, a port or a number finds what it finds, as JSON.
  board_why_json({ space, number, place }) {
    return this.told_by((handle, ...rooms) => this.engine.exports.pciguest_raw_board_why_json(handle, SPACE_NUMBERS[space], ...number, place, ...rooms));
  }

  // What was told before is given where the JSON is the same: it has all that the lines tell.
  findings() {
    const told = this.ready_json();
    if (told !== this.told) Object.assign(this, { told, found: told === null ? null : findings_in(read_json(told), this.readiness()) });
    return this.found;
  }

  // What the registers of a function say that no cycle need find, by its place in path order: the number at which it is looked for, where the
  // regions begin, by register, the windows that are there, and what its Command opens. What was told before is given where it is the same.
  function_at(nth, before) {
    const told = this.row_of(this.engine.exports.pciguest_raw_board_function, nth), long = at => told.getBigUint64(at, true), word = at => told.getUint32(at, true);
    const words = new Uint32Array(told.buffer, told.byteOffset, FUNCTION_ROW / 4);
    if (before && are_same(before.words, words)) return before;
    const [bus, device, number] = [0, 4, 8].map(at => word(NUMBER_AT + at)), place = number_at({ bus, device, function: number }), [io, mem] = [0, 4].map(at => word(OPENS_AT + at) !== 0);
    const firsts = Array.from({ length: 6 }, (_, register) => long(REGIONS_AT + REGION_ROW * register));
    const window_at = (space, at) => ({ space, first: long(at), last: long(at + 8), is_there: word(at + 16) !== 0 });
    return { words: words.slice(), place, firsts, opens: { io, mem, pref: mem },
      windows: WINDOW_SPACES.map((space, at) => window_at(space, WINDOWS_AT + WINDOW_ROW * at)) };
  }
}

// The output of each line of a script; `ran` is told of each line and its output.
export function run(held, script, ran = () => {}) {
  const parts = [];
  let start = 0;
  while (start < script.length) {
    const feed = script.indexOf(10, start), end = feed < 0 ? script.length : feed;
    const line = script.subarray(start, end), output = held.answer(line);
    parts.push(output);
    ran(line, output);
    start = end + 1;
  }
  return parts;
}
