// The registers of one function as named fields, in groups, and what each writes. What is written into one is a line, or two where a
// register has an upper part.

import { hex, size_in_words } from './report.js';
import { register_named } from './register_names.js';
import { capability_list } from './capabilities.js';

const COMMAND_BITS = [['I/O space', 0], ['Memory space', 1], ['Bus master', 2], ['Parity error response', 6], ['SERR# enable', 8], ['Interrupt disable', 10]];
const STATUS_BITS = [['Master data parity error', 8], ['Signaled target abort', 11], ['Received target abort', 12], ['Received master abort', 13],
  ['Signaled system error', 14], ['Detected parity error', 15]];
// Bits of Status that are read-only, and that the board file may declare. They are shown where they are set.
const FIXED_STATUS_BITS = [['66 MHz capable', 5], ['Reserved bit 6', 6], ['Fast back-to-back capable', 7], ['Medium DEVSEL timing', 9], ['Slow DEVSEL timing', 10]];
const SECONDARY_STATUS_BITS = STATUS_BITS.map(([name, bit]) => [bit === 14 ? 'Received system error' : name, bit]);

const at_offset = registers => `${registers[0].title}, offset ${registers.map(({ offset }) => hex(offset)).join(' and ')}`;
const place_in = ({ offset, width }) => [offset, width];

// What a register holds, and whether Command opens a space.
export const number_in = (values, { offset, width }) => BigInt(values.get(offset & ~3) ?? 0) >> BigInt(8 * (offset & 3)) & ((1n << BigInt(8 * width)) - 1n);
const opens = (values, space) => (number_in(values, register_named('endpoint', 'command')) & (space === 'io' ? 1n : 2n)) !== 0n;

function byte(name, of, { kind, values }) {
  const register = register_named(kind, of), place = place_in(register);
  return { name, places: [place], title: at_offset([register]), most: 0xffn, now: number_in(values, register), writes: value => [[...place, value]] };
}

const word_in_hex = word => `0x${word.toString(16).padStart(4, '0')}`;
const names_by_bit = names => names.map(([name, bit]) => [bit, name]);

// Bits of a register of two bytes as switches. Of those that writing a one clears, only one that is set can be written.
function switches_of(register, names, now, clears = false) {
  const place = place_in(register);
  return names.map(([name, bit]) => {
    const on = (now >> bit & 1) !== 0;
    return { name, on, title: `bit ${bit} of ${at_offset([register])}`, places: [place], shut: clears && !on, writes: () => [[...place, clears ? 1 << bit : now ^ 1 << bit]] };
  });
}

function bits_of(of, names, { kind, values }, clears) {
  const register = register_named(kind, of), { title } = register, now = Number(number_in(values, register));
  const fixed = clears ? switches_of(register, FIXED_STATUS_BITS, now).filter(({ on }) => on).map(one => ({ ...one, shut: true })) : [];
  const form = clears ? null : { is: 'command', title, registers: [{ ...register, name: title, low: 0, names: names_by_bit(names) }] };
  return { title, told: `${word_in_hex(now)}${clears ? ', writing a one clears' : ''}`, fields: [], switches: [...switches_of(register, names, now, clears), ...fixed], form };
}

// Some bits of a register as a number.
function number_field(register, [name, mask, shift], now) {
  const place = place_in(register), bits = mask.toString(2), lowest = bits.length - 1 - bits.lastIndexOf('1');
  return { name, places: [place], title: `bits ${bits.length - 1} to ${lowest} of ${at_offset([register])}`, most: mask >> shift, now: (now & mask) >> shift,
    writes: value => [[...place, now & ~mask | value << shift]] };
}

// A structure of the capability list whose registers are known; the first of them is Message Control.
function structure_of({ name, offset, told, registers }, values) {
  const title = `${name} at ${hex(offset)}`, held = register => number_in(values, register);
  return { title, told: `${word_in_hex(held(registers[0]))}, ${told}`, switches: registers.flatMap(one => switches_of(one, one.switches, Number(held(one)))),
    fields: registers.flatMap(one => one.numbers.map(bits => number_field(one, bits, held(one)))),
    form: { is: 'structure', title, registers: registers.map(one => ({ ...one, low: 0, names: names_by_bit(one.switches) })) } };
}

// How registers hold an address: from a shift on the lower one has the bits of a mask, of which the lowest tell the kind, and the upper one, if
// there is one, the rest.
const PORTS = { shift: 8n, mask: 0xf0n, low: 4, high: 16n, unit: 0x1000n }, MEMORY = { shift: 16n, mask: 0xfff0n, low: 4, high: 32n, unit: 0x100000n };
const BASE = { shift: 0n, mask: 0xffffffffn, high: 32n };

// Such an address as it is read, or told of a function that no cycle finds.
function address_in(values, [lower, upper], { shift, low, high }, told) {
  if (!values.has(lower.offset & ~3)) return told;
  return (number_in(values, lower) >> BigInt(low) << BigInt(low) << shift) + (upper ? number_in(values, upper) << high : 0n);
}

const address_field = (name, registers, { shift, mask, high }, now) => ({ name, now, places: registers.map(place_in), title: at_offset(registers),
  most: (1n << high * BigInt(registers.length)) - 1n,
  writes: value => registers.map((register, nth) => [...place_in(register), nth === 0 ? value >> shift & mask : value >> high]) });

function window_of(space, { decodes, values, all_windows }) {
  const [title, shape, wide] = { io: ['I/O window', PORTS, decodes.io === 32], mem: ['Memory window', MEMORY, false],
    pref: ['Prefetchable window', MEMORY, decodes.pref === 64] }[space];
  const [base, limit] = ['base', 'limit'].map(end => [end, ...(wide ? [`${end}_upper`] : [])].map(name => register_named('bridge', `${space}_${name}`)));
  const told = all_windows?.find(one => one.space === space), rest = shape.unit - 1n;
  const first = address_in(values, base, shape, told?.first), last = address_in(values, limit, shape, told && told.last - rest) + rest;
  const registers = [['Base', base[0]], ['Limit', limit[0]], ['upper Base', base[1]], ['upper Limit', limit[1]]].filter(([, register]) => register)
    .map(([name, register], nth) => ({ ...register, name, low: nth < 2 ? shape.low : 0 }));
  return { title, form: { is: 'window', title, unit: shape.unit, registers }, switches: [],
    told: first > last ? 'disabled: Base above Limit' : opens(values, space) ? size_in_words(last - first + 1n) : 'disabled by Command',
    fields: [address_field('first', base, shape, first), address_field('last', limit, shape, last)] };
}

function base_of({ name, kind, first, size }, { values }) {
  const space = kind === 'io' ? 'io' : 'mem', mem64 = kind.startsWith('mem64'), shape = { ...BASE, low: space === 'io' ? 2 : 4 };
  const registers = [name, ...(mem64 ? [`bar${Number(name.slice(3)) + 1}`] : [])].map(one => register_named('endpoint', one));
  const form = { is: 'base', title: `${name} ${kind}`, space, mem64, registers: registers.map((register, nth) => ({ ...register, low: nth === 0 ? shape.low : 0 })) };
  return { title: `${name} ${kind}, ${size_in_words(size)}`, form, told: opens(values, space) ? 'enabled' : 'disabled by Command', switches: [],
    fields: [address_field('base', registers, shape, address_in(values, registers, shape, first))] };
}

// The groups of fields of a function: { title, told, switches, fields, bytes }.
export function groups_of(one) {
  const bridge = one.kind === 'bridge', own = (title, ...those) => ({ title, told: '', switches: [], fields: those.map(([name, of]) => byte(name, of, one)), bytes: true });
  const shared = [bits_of('command', bridge ? COMMAND_BITS.slice(0, 5) : COMMAND_BITS, one, false), bits_of('status', STATUS_BITS, one, true)];
  const others = [['Line', 'line'], ['Cache', 'cacheline'], ['Latency', 'latency']];
  const structures = capability_list(one.values).structures.filter(({ registers }) => registers.length > 0).map(each => structure_of(each, one.values));
  if (!bridge) return [...shared, ...(one.all_regions ?? one.regions).map(region => base_of(region, one)), ...structures, own('Other bytes', ...others)];
  return [shared[0], own('Buses', ['Primary', 'primary'], ['Secondary', 'secondary'], ['Subordinate', 'subordinate']),
    ...['io', 'mem', 'pref'].filter(space => one.decodes[space]).map(space => window_of(space, one)), shared[1],
    bits_of('secondary_status', SECONDARY_STATUS_BITS, one, true), own('Other bytes', ...others, ['2nd latency', 'secondary_latency'])];
}

// What no field writes, in words.
export function identity_of(one) {
  const number = name => number_in(one.values, register_named(one.kind, name)), pin = Number(number('pin'));
  const word = name => number(name).toString(16).padStart(2 * register_named(one.kind, name).width, '0');
  const more = (number('header') & 0x80n) !== 0n ? ', one of several functions' : '';
  const subsystem = one.kind === 'bridge' ? '' : `, subsystem ${word('subvendor')}:${word('subsystem')}`;
  const list = capability_list(one.values).told;
  return `${word('vendor')}:${word('device')}${subsystem}, revision ${word('revision')}, class ${word('class')} ${word('subclass')} ${word('interface')} (${one.words}), `
    + `header type ${word('header')}${more}, ${pin === 0 ? 'no interrupt pin' : `pin INT${'?ABCD'[pin]}#`}${list && `\n${list}`}`;
}

export const hex_line = (who, where, [offset, width, value]) => `${who} cw ${where} ${hex(offset)} ${width} ${hex(value)}`;
