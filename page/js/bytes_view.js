// The 256 bytes of a function's configuration space, beside its fields: those of a field are marked with it, and those that changed.

import { two_digits } from './report.js';
import { head_of, make, put_text } from './marks.js';
import { register_at } from './register_names.js';
import { capability_list, register_of_list } from './capabilities.js';

const ACROSS = 16, HEADER = 64;

export class Bytes {
  // `told` is where the name of a byte is told that is pointed at; `mark` is given the offset, or null.
  constructor(into, told, mark) { Object.assign(this, { into, told, mark, cells: [], before: null, of: '' }); }

  // Rows of the header, and of what is behind it where a byte isn't 0. Those are marked that changed since, and places that are told as changed.
  draw(bytes, one, whose, changed) {
    if (bytes === null) { this.into.replaceChildren(); this.cells = []; this.of = ''; return; }
    const rows = [...Array(256 / ACROSS).keys()].filter(row => row * ACROSS < HEADER || bytes.subarray(row * ACROSS, row * ACROSS + ACROSS).some(byte => byte !== 0));
    const list = capability_list(one.values), of = `${one.path} ${whose} ${rows} ${list.told}`;
    if (of !== this.of) this.build(rows, at => register_at(one.kind, at) ?? register_of_list(list, at));
    for (const [offset, cell] of this.cells) {
      put_text(cell, two_digits(bytes[offset]));
      cell.classList.toggle('changed', (of === this.of && this.before !== null && this.before[offset] !== bytes[offset]) || changed.includes(offset));
      cell.classList.toggle('zero', bytes[offset] === 0);
    }
    Object.assign(this, { of, before: bytes });
  }

  // `register_of` gives the register that has a byte, or null.
  build(rows, register_of) {
    const columns = Array.from({ length: ACROSS }, (_, nth) => nth);
    this.cells = [];
    this.into.replaceChildren(head_of(['0x', ...columns.map(nth => nth.toString(16))]), ...rows.map(row => {
      const name = Object.assign(make('th', '', two_digits(row * ACROSS)), { scope: 'row' });
      return make('tr', '', name, ...columns.map(nth => this.cell_of(row * ACROSS + nth, register_of)));
    }));
  }

  cell_of(offset, register_of) {
    const cell = make('td', ''), register = register_of(offset);
    const name = register === null ? (offset < HEADER ? 'reserved' : "the device's own") : register.title;
    cell.title = `0x${two_digits(offset)}: ${name}`;
    cell.addEventListener('pointerenter', () => { this.told.textContent = cell.title; this.mark(offset); });
    cell.addEventListener('pointerleave', () => { this.told.textContent = ''; this.mark(null); });
    this.cells.push([offset, cell]);
    return cell;
  }

  // Marks the bytes of some places.
  light(places) {
    for (const [offset, cell] of this.cells) cell.classList.toggle('lit', places.some(([first, width]) => first <= offset && offset < first + width));
  }
}
