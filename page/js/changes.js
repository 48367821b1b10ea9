// What a line changed: what it wrote, and after it numbers, regions, windows and who has a function, each before and after.

import { grouped } from './findings.js';
import { hex } from './report.js';
import { called } from './names.js';
import { VERBS, number_of, words_in } from './forms.js';
import { function_named } from './register_in_line.js';
import { register_at } from './register_names.js';
import { owner_in_words } from './marks.js';

const range_of = ({ first, last }) => `${hex(first)} to ${hex(last)}`;
const last_of = region => region.first + region.size - 1n;

// A fact has the function that it is about, its words, its value in words, and the place that its registers name, or null.
const fact = (one, name, value, place = null) => ({ path: one.path, called: called(one), name, value, place });

function facts_of_bridge(one) {
  const told = window => (window.open ? range_of(window) : window.first > window.last ? 'disabled, Base above Limit' : `disabled, ${range_of(window)}`);
  return [fact(one, 'buses', one.buses.join(' ')), ...one.all_windows.map(window => fact(one, `${window.space} window`, told(window),
    window.first > window.last ? null : { space: window.space === 'io' ? 'io' : 'mem', register: null, first: window.first, last: window.last }))];
}

function fact_of_region(one, region) {
  const place = { space: region.kind === 'io' ? 'io' : 'mem', register: region.name, first: region.first, last: last_of(region) };
  return fact(one, region.name, `${region.open ? 'enabled' : 'disabled'}, ${range_of(place)}`, place);
}

// What firmware's registers say of a function.
function facts_of_function(one) {
  const found = fact(one, 'number', one.lost ? `${one.place}, where no cycle finds it` : one.place);
  return [found, ...(one.kind === 'bridge' ? facts_of_bridge(one) : one.all_regions.map(region => fact_of_region(one, region)))];
}

// Where guests have placed their regions, each by its name.
const name_of_placed = one => `guest ${one.owner.guest}, slot ${one.owner.slot} ${one.region.name}`;
const facts_of_placed = placed => (placed ?? []).map(one => fact(one.of, name_of_placed(one), `${one.open ? '' : 'disabled, '}${range_of(one)}`, one));

const text_of_regions = regions => (regions ?? []).map(one => `${one.first} ${one.last ?? ''} ${one.open}`).join();
const is_as = (old, fresh) => old === fresh || (old.place === fresh.place && old.lost === fresh.lost && String(old.buses) === String(fresh.buses)
  && text_of_regions(old.all_regions) === text_of_regions(fresh.all_regions) && text_of_regions(old.all_windows) === text_of_regions(fresh.all_windows));

// The facts of both moments that may differ: those of functions of firmware's board that are no longer as they were, of functions that have
// another guest, and all that guests have placed.
function doubtful(before, after) {
  const driven = (before.driven ?? []).flatMap((old, nth) => (after.driven === null || is_as(old, after.driven[nth]) ? [] : [[old, after.driven[nth]]]));
  const moved = after.functions.filter(({ path }) => String(owner_in_words(before.owners.get(path))) !== owner_in_words(after.owners.get(path)));
  const of = (moment, nth) => [...driven.flatMap(pair => facts_of_function(pair[nth])),
    ...moved.map(one => fact(one, 'assigned to', owner_in_words(moment.owners.get(one.path)))), ...facts_of_placed(moment.placed)];
  return [of(before, 0), of(after, 1)].map(all => new Map(all.map(one => [`${one.path} ${one.name}`, one])));
}

// What is different in the later of two moments: { changes, came, gone }. A change has a function, a name, its words before and after, and the
// places that its registers named and name, or null. A moment has what firmware's registers say of functions or null, its problems, who has which
// function, and what guests have placed or null.
export function changes_between(before, after) {
  const [old, fresh] = doubtful(before, after), changes = [];
  for (const key of new Set([...old.keys(), ...fresh.keys()])) {
    const [one, other] = [old.get(key), fresh.get(key)], { path, name } = one ?? other;
    if (one?.value === other?.value) continue;
    changes.push({ path, called: (other ?? one).called, name, before: one?.value ?? 'disabled', after: other?.value ?? 'disabled', was: one?.place ?? null, now: other?.place ?? null });
  }
  const texts = those => new Set(those.map(one => one.text)), [had, has] = [texts(before.problems), texts(after.problems)];
  return { changes, came: [...has].filter(text => !had.has(text)), gone: [...had].filter(text => !has.has(text)) };
}

// What a line writes: the read of the same place, and its words; null for a line that writes nothing.
export function written_by(line, { functions, owners }) {
  const [who, verb, ...rest] = words_in(line).map(one => one.word), { space, read_back } = VERBS[verb] ?? {};
  if (read_back === undefined) return null;
  const asks = [who, read_back, ...rest.slice(0, -1)].join(' ');
  if (space !== 'cfg') return { line: asks, path: null, offset: 0, words: `${space === 'io' ? 'I/O port' : 'memory'} ${rest[0]}${who === 'host' ? '' : ` of ${who}`}` };
  const [where, offset, width] = rest, [from, bytes] = [offset, width].map(word => Number(number_of(word ?? '') ?? 0n));
  const one = function_named(who, where ?? '', functions.filter(each => !each.lost), owners), titles = new Set(Array.from({ length: Math.min(bytes, 4) }, (_, nth) => register_at(one?.kind ?? 'endpoint', from + nth)?.title ?? 'bytes of its own'));
  return { line: asks, path: one?.path ?? null, called: one && called(one), offset: from, words: [...titles].join(', ') };
}

// What was changed of each function, in words, by its path.
export const texts_of_changes = changes => grouped(changes.filter(({ path }) => path !== null)
  .map(({ path, name, before, after }) => [path, `${name}: ${before}, now ${after}`]));

// The bytes that are others after a write, by their offsets.
function offsets_between({ offset, before, after }) {
  const [old, fresh] = [before, after].map(text => (/0x([0-9a-f]+)$/.exec(text)?.[1].match(/../g) ?? []).reverse());
  return old.flatMap((byte, nth) => (byte === fresh[nth] ? [] : [offset + nth]));
}

function change_written({ path, called: one, words, before, after }) {
  const value = text => text.slice(text.indexOf(':') + 2);
  return { path, called: one, name: words, before: value(before), after: before === after ? 'as it was' : value(after), was: null, now: null };
}

// Whether a line is a remark, or has no word: it changes nothing, and nobody counts it.
export const is_remark = line => /^\s*(#|$)/.test(line);

// What no line changed.
export const NOTHING_CHANGED = { line: null, reply: '', of: null, offsets: [], changes: [], came: [], gone: [] };

// A line with what it changes, as it runs: { line, reply, changes, came, gone }. `read` answers a line and leaves no trace; `moment` gives
// how the board stands.
export class Watch {
  constructor({ read, moment }) { Object.assign(this, { read, moment, before: null, ran: [], written: null }); }

  // From here on nothing has changed.
  forget() { Object.assign(this, { before: this.moment(), ran: [], written: null }); }

  begins(line) {
    const place = this.before === null ? null : written_by(line, this.before);
    this.written = place && { ...place, before: this.read(place.line) };
  }

  ends(line, reply) {
    if (!is_remark(line)) this.ran.push({ line, reply });
    if (/: refused /.test(reply)) this.written = null;
    if (this.written !== null) this.written.after = this.read(this.written.line);
  }

  // What all lines changed that ran since one looked last, and what the last one wrote; null where none ran.
  look() {
    if (this.ran.length === 0) return null;
    const { before, ran, written } = this, after = this.moment(), found = changes_between(before, after);
    const wrote = written === null || ran.length > 1 || /refused/.test(written.before) ? [] : [change_written(written)];
    Object.assign(this, { before: after, ran: [], written: null });
    const [{ line, reply }] = ran.slice(-1), offsets = wrote.length === 0 ? [] : offsets_between(written);
    const said = ran.length > 1 ? `${ran.length} lines, the last of them ${line}` : line;
    return { ...found, of: written?.path ?? null, offsets, line: said, reply, changes: [...wrote, ...found.changes] };
  }
}
