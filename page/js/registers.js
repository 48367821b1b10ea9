// The registers of the selected function: named fields, in which one writes, beside its bytes.

import { hex } from './report.js';
import { make, put_text } from './marks.js';
import { number_shown } from './names.js';
import { number_of } from './forms.js';
import { groups_of, identity_of, number_in } from './fields.js';
import { Bytes } from './bytes_view.js';
import { Bits } from './bits_view.js';

const ALL_DWORDS = Array.from({ length: 64 }, (_, nth) => 4 * nth);

// The 256 bytes that somebody reads of a function.
export function bytes_of(held, who, where) {
  const bytes = new Uint8Array(256), view = new DataView(bytes.buffer);
  for (const offset of ALL_DWORDS) view.setUint32(offset, Number(held.number(`${who} cr ${where} ${hex(offset)} 4`)), true);
  return bytes;
}

// A function with such bytes as its registers.
export function seen_in(one, bytes, decodes) {
  const view = new DataView(bytes.buffer);
  return { ...one, decodes, values: new Map(ALL_DWORDS.map(offset => [offset, view.getUint32(offset, true)])) };
}

const labelled = (name, input) => make('label', '', ...(input.type === 'checkbox' ? [input, name] : [name, input]));

export class Registers {
  // `parts` are the elements `chosen`, `lost`, `identity`, `fields`, `bytes`, `byte` and `bits`; `choose` is given a path, `wired` gives what
  // registers of a function read back, and `moment` which bytes of which function the last line changed, and whether that is past.
  constructor(parts, choose, { wired, moment }) {
    Object.assign(this, { parts, wired, moment, seen: '', listed: '', marked: [], of_bits: '', one: null, groups: [] });
    this.bytes = new Bytes(parts.bytes, parts.byte, offset => this.light_fields(offset));
    this.bits = new Bits(parts.bits);
    parts.chosen.addEventListener('change', () => choose(parts.chosen.value));
  }

  // What changes from here on is marked.
  forget() { this.bytes.before = null; }

  clear() {
    for (const one of [this.parts.fields, this.parts.bytes, this.parts.bits]) one.replaceChildren();
    this.parts.lost.textContent = this.parts.identity.textContent = '';
    this.seen = this.bytes.of = '';
  }

  // Shows `one` of some functions: `bytes` are its 256 bytes or null, `note` says why nothing can be written, or nothing; `write` is given
  // an offset, a width and a value.
  draw(functions, one, { bytes, note, whose, write }) {
    const listed = functions.map(each => `${each.path} ${number_shown(each)}`).join(' ');
    if (this.listed !== listed) {
      this.listed = listed;
      this.parts.chosen.replaceChildren(...functions.map(each => new Option(`${number_shown(each)} ${each.words}, ${each.path}`, each.path)));
    }
    this.parts.chosen.value = one.path;
    const { of, offsets, is_past } = this.moment(), why_shut = is_past ? 'The registers as they were then. A new line continues from the present.' : note;
    put_text(this.parts.lost, why_shut);
    put_text(this.parts.identity, bytes === null ? '' : identity_of(one));
    const groups = groups_of(one), form = [one.path, whose, ...groups.map(group => group.title)].join();
    Object.assign(this, { one, groups });
    if (this.seen !== form) { this.seen = form; this.of_bits = ''; this.build(groups); }
    this.bytes.draw(bytes, one, whose, of === one.path ? offsets : []);
    this.show(groups, why_shut !== '', write);
    this.show_bits(groups.find(group => group.title === this.of_bits) ?? groups.find(group => group.form && group.form.is !== 'command') ?? groups[0], []);
  }

  // The bits of a group's registers: what is written into them, and of others what they hold, or what is told of one that no cycle finds.
  show_bits(group, written) {
    if (!group?.form) return;
    const { form, title } = group, places = form.registers.map(({ offset, width }) => [offset, width]);
    const all = [...written, ...group.fields.flatMap(field => field.writes(field.now))];
    const values = places.map(([offset, width]) => BigInt(all.find(([at]) => at === offset)?.[2] ?? number_in(this.one.values, { offset, width })));
    if (this.of_bits !== title || this.bits.shown === null || written.length === 0) {
      this.of_bits = title;
      this.bits.draw(form, this.wired(this.one.path, places), values);
    } else this.bits.show(values);
  }

  // Shows the bits of the register at which a line reads or writes, with the value that is typed so far, or null.
  preview(offset, width, value) {
    const meets = one => one.offset < offset + width && offset < one.offset + one.width;
    const group = this.groups.find(({ form }) => form?.registers.some(meets));
    if (!group) return;
    const byte_of = (one, at) => (value !== null && offset <= at && at < offset + width ? value >> BigInt(8 * (at - offset)) & 0xffn
      : number_in(this.one.values, one) >> BigInt(8 * (at - one.offset)) & 0xffn);
    const written = group.form.registers.filter(meets).map(one => [one.offset, one.width,
      Array.from({ length: one.width }, (_, nth) => byte_of(one, one.offset + nth) << BigInt(8 * nth)).reduce((sum, byte) => sum | byte, 0n)]);
    this.show_bits(group, written);
  }

  // A fieldset for each group.
  build(groups) {
    const box = (type, name) => Object.assign(make('input', ''), type === 'text' ? { type, spellcheck: false, autocomplete: 'off' } : { type, name });
    this.inputs = groups.map(group => [...group.switches.map(({ name }) => box('checkbox', name)), ...group.fields.map(() => box('text'))]);
    this.parts.fields.replaceChildren(...groups.map((group, nth) => make('fieldset', group.bytes ? 'bytes' : '', make('legend', '', group.title, make('small')),
      ...[...group.switches, ...group.fields].map(({ name }, at) => labelled(name, this.inputs[nth][at])))));
    this.told = [...this.parts.fields.querySelectorAll('legend small')];
  }

  // What the registers hold now. What one is typing in a field stays.
  show(groups, shut, write) {
    this.marked = [];
    groups.forEach((group, nth) => {
      put_text(this.told[nth], group.told && ` ${group.told}`);
      [...group.switches, ...group.fields].forEach((field, at) => {
        const input = this.inputs[nth][at];
        if (at < group.switches.length) this.show_switch(field, input, shut, write);
        else this.show_field(field, input, shut, write);
        input.title = field.title;
        this.follow(field, input, group);
      });
    });
  }

  show_switch(field, input, shut, write) {
    input.checked = field.on;
    input.disabled = shut || Boolean(field.shut);
    input.onchange = () => { for (const each of field.writes()) write(each); };
  }

  show_field(field, input, shut, write) {
    const width = field.most === 0xffn ? 2 : 0;
    if (document.activeElement !== input || input.value === input.dataset.shown) input.value = `0x${field.now.toString(16).padStart(width, '0')}`;
    input.dataset.shown = input.value;
    input.readOnly = shut;
    input.onchange = () => {
      const value = number_of(input.value.trim()), fits = value !== null && value <= field.most;
      input.setAttribute('aria-invalid', !fits);
      input.setCustomValidity(fits ? '' : `a number from 0 to ${hex(field.most)}`);
      if (!fits) { input.reportValidity(); return; }
      input.dataset.shown = input.value;
      for (const each of field.writes(value)) write(each);
    };
  }

  // The bytes of a field are marked while one is at it, and a field while one points at a byte of it.
  follow(field, input, group) {
    const label = input.parentElement, tell = on => () => { this.bytes.light(on ? field.places : []); this.parts.byte.textContent = on ? field.title : ''; };
    this.marked.push([label, field.places]);
    input.oninput = () => {
      const value = field.most === undefined ? 0n : number_of(input.value.trim());
      if (value !== null && value <= (field.most ?? 0n)) this.show_bits(group, field.writes(value));
    };
    input.onpointerdown = () => this.show_bits(group, []);
    label.onpointerenter = tell(true);
    input.onfocus = () => { tell(true)(); this.show_bits(group, []); };
    label.onpointerleave = input.onblur = tell(false);
  }

  light_fields(offset) {
    for (const [label, places] of this.marked) label.classList.toggle('lit', offset !== null && places.some(([first, width]) => first <= offset && offset < first + width));
  }
}
