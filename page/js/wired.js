// Which bits of a function's registers can be written: on a board of its own at reset, all ones and then zeros are written and read back.

import { hex, parent_of, two_digits } from './report.js';
import { asked_of } from './asked.js';

// The bridges above a function, the first one on bus 0.
const above = path => (parent_of(path) === '' ? [] : [...above(parent_of(path)), parent_of(path)]);

export class Wired {
  // `open` gives a board at reset; `functions` are the report's.
  constructor(open, functions) { Object.assign(this, { open, functions, known: new Map() }); }

  // Numbers the buses down to a function, one by one, and gives its number there.
  place_of(held, path) {
    const number = at => this.functions.find(one => one.path === at).place.slice(3);
    above(path).forEach((bridge, nth) => asked_of(held, `host cw ${two_digits(nth)}:${number(bridge)} 0x18 4 ${hex(0xff0000 + (nth + 1) * 0x100 + nth)}`));
    return `${two_digits(above(path).length)}:${number(path)}`;
  }

  // What registers read back after all ones and after zeros, by offset: of each place of an offset and a width.
  read_back(path, places) {
    const key = `${path} ${places}`;
    if (!this.known.has(key)) this.known.set(key, this.tried(path, places));
    return this.known.get(key);
  }

  tried(path, places) {
    const held = this.open(), place = this.place_of(held, path), ones_of = width => (1n << BigInt(8 * width)) - 1n;
    const after = value => places.map(([offset, width]) => {
      asked_of(held, `host cw ${place} ${hex(offset)} ${width} ${hex(value & ones_of(width))}`);
      return held.number(`host cr ${place} ${hex(offset)} ${width}`);
    });
    const [ones, zeros] = [after(0xffffffffn), after(0n)];
    held.close();
    return places.map((_, nth) => ({ ones: ones[nth], zeros: zeros[nth] }));
  }
}
