// A register as boxes of bits, while one types a value: which bits are the address or switches, which tell the kind, and which are wired. And
// what a write of all ones reads back, and why that tells a size.

import { hex, size_in_words } from './report.js';
import { make } from './marks.js';

const NIBBLE = 4;
const KINDS = { set: 'can be written', kind: 'encodes the kind', wired: 'hardwired' };

// Each bit of a register, the highest first: { bit, on, kind }. `value` is what is written; what is wired stays as it is.
function bits_of_register({ width, ones, zeros, low }, value) {
  return Array.from({ length: 8 * width }, (_, nth) => 8 * width - 1 - nth).map(bit => {
    const at = word => (word >> BigInt(bit) & 1n) === 1n, can_be_set = at(ones) !== at(zeros);
    return { bit, on: can_be_set ? at(value) : at(ones), kind: can_be_set ? 'set' : bit < low ? 'kind' : 'wired' };
  });
}

const value_of = bits => bits.reduce((sum, { bit, on }) => sum | (on ? 1n << BigInt(bit) : 0n), 0n);
const digits = (value, width) => `0x${value.toString(16).padStart(2 * width, '0')}`;

function box_of({ bit, on, kind }, name) {
  const box = make('span', `bit ${kind}`, on ? '1' : '0');
  box.title = `bit ${bit}${name ? `, ${name}` : ''}: ${KINDS[kind]}`;
  return box;
}

// Groups of four bits, each below the number of its first one.
function boxes_of(bits, names) {
  const row = make('div', 'boxes');
  for (let at = 0; at < bits.length; at += NIBBLE) {
    const those = bits.slice(at, at + NIBBLE);
    row.append(make('span', 'nibble', make('small', '', `${those[0].bit}`), ...those.map(one => box_of(one, names.get(one.bit)))));
  }
  return row;
}

// From which bit to which, of those of a kind.
function bits_in_words(bits, kind) {
  const those = bits.filter(one => one.kind === kind).map(one => one.bit);
  if (those.length === 0) return null;
  const runs = [];
  for (const bit of those) if (runs.length > 0 && runs.at(-1)[1] === bit + 1) runs.at(-1)[1] = bit; else runs.push([bit, bit]);
  return runs.map(([from, to]) => (from === to ? `${from}` : `${from} to ${to}`)).join(', ');
}

// Why a base register tells its region's size: all of it, where it has an upper half.
function size_told(registers, { space, mem64 }) {
  const low = registers[0].ones & (space === 'io' ? ~3n : ~15n), bits = mem64 ? 64n : 32n;
  const back = low + (mem64 ? registers[1].ones << 32n : 0n), size = (1n << bits) - back;
  return `Without the bits for the kind that is ${hex(back)}. Inverted it is ${hex(size - 1n)}, and one more is ${hex(size)}: ${size_in_words(size)}. `
    + 'The bits below the size are hardwired to 0, so a region starts at a multiple of its size.';
}

const meaning_of = {
  base: (registers, form) => size_told(registers, form),
  window: (_, { unit }) => 'The bits that can be written are the upper ones of the address. Those below are 0 in Base and 1 in Limit, '
    + `so a window is made of units of ${size_in_words(unit)}.`,
  command: () => 'A bit that is hardwired to 0 is a switch that this function doesn\'t have.',
  structure: () => 'The hardwired bits describe the function. Software sets the others.',
};

export class Bits {
  constructor(into) { Object.assign(this, { into, shown: null, drawn: '' }); }

  clear() { Object.assign(this, { shown: null, drawn: '' }); this.into.replaceChildren(); }

  // `form` is what a group of fields says of its registers; `tried` are they as `Wired` read them back, and `values` what they hold.
  draw(form, tried, values) {
    this.shown = { form, registers: form.registers.map((one, nth) => ({ ...one, ...tried[nth] })) };
    this.show(values);
  }

  // Values that one types, register by register; those that are drawn already stay.
  show(values) {
    if (this.shown === null) return;
    const { form, registers } = this.shown, drawn = [form.title, ...registers.flatMap(Object.values), ...values].join();
    if (drawn === this.drawn) return;
    this.drawn = drawn;
    this.into.replaceChildren(make('h3', '', `Bits of ${form.title}`), ...registers.map((register, nth) => this.row_of(register, values[nth])),
      this.key(), make('p', 'hint', this.in_words(form, registers)));
  }

  row_of(register, value) {
    const bits = bits_of_register(register, value), names = new Map(register.names), told = `${register.name}, ${hex(register.offset)}: ${digits(value_of(bits), register.width)}`;
    const row = make('div', 'of_bits', make('span', 'unit', told), boxes_of(bits, names));
    row.setAttribute('role', 'img');
    row.setAttribute('aria-label', `${told}, in bits ${bits.map(one => (one.on ? 1 : 0)).join('')}`);
    return row;
  }

  key() {
    return make('p', 'hint', ...Object.entries(KINDS).flatMap(([kind, words]) => [make('span', `bit ${kind}`, '\u00a0'), ` ${words}\u2003`]));
  }

  in_words(form, registers) {
    const of_each = registers.map(register => {
      const bits = bits_of_register(register, 0n), told = [['set', 'can be written'], ['kind', 'encode the kind'], ['wired', 'are hardwired']]
        .map(([kind, words]) => [bits_in_words(bits, kind), words]).filter(([span]) => span !== null).map(([span, words]) => `${span} ${words}`);
      return `${register.name}: bits ${told.join('; ')}`;
    });
    const back = registers.map(({ name, ones, width }) => `${digits(ones, width)} in ${name}`).join(' and ');
    return `${of_each.join('. ')}. A write of all ones reads back ${back}. ${meaning_of[form.is](registers, form)}`;
  }
}
