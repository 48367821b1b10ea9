// The route of a configuration cycle, an address or a port down the tree, bus by bus: which register forwards it or responds to it, and which doesn't.

import { hex, parent_of, regions_of, two_digits, windows_of } from './report.js';
import { VERBS, number_of, words_in } from './forms.js';
import { called } from './names.js';

const WINDOW_NAMES = { io: 'I/O window', mem: 'memory window', pref: 'prefetchable window' };
const NUMBER = /^([0-9a-f]{2}):([0-9a-f]{2}\.[0-7])$/i;
const LATCH_PORT = 0xcf8n, LATCH_DATA = 0xcfcn, LAST_PORT = 0xcffn;
const is_in = ({ first, last }, place) => first <= place && place <= last;
const span_on_way = region => ({ ...region, last: region.first + region.size - 1n });
const reach_of = ({ first, last }) => `${hex(first)} to ${hex(last)}`;
const hex_bus = text => parseInt(text, 16);

// What goes down by a line of the host's: { space, place, words }; null where nothing does, as by the latch. `latch` reads CONFIG_ADDRESS.
export function sent_by(line, latch) {
  const [who, verb, word] = words_in(line).map(one => one.word), asks = verb === 'why', space = asks ? word : VERBS[verb]?.space;
  const place = asks ? words_in(line)[3]?.word : word;
  if (who !== 'host' || space === undefined || place === undefined) return null;
  if (space === 'cfg') return NUMBER.test(place) ? { space, place: place.toLowerCase(), words: `configuration ${place.toLowerCase()}` } : null;
  const at = number_of(place);
  if (at === null) return null;
  if (space === 'io' && LATCH_PORT <= at && at <= LAST_PORT) return sent_by_latch(at, latch);
  return { space, place: at, words: `${space === 'io' ? 'I/O port' : 'address'} ${hex(at)}` };
}

// What goes down by a guest's line: its own address, translated by a region that it has enabled, `open`, or the function in its slot.
export function sent_by_guest(line, open, path_in_slot, functions) {
  const [who, verb, word] = words_in(line).map(one => one.word), space = VERBS[verb]?.space, at = number_of(word ?? '');
  if (space === undefined || at === null) return null;
  const path = space === 'cfg' ? path_in_slot(who, Number(at)) : undefined, in_slot = functions.find(each => each.path === path);
  if (in_slot) return { space, place: in_slot.place, words: `slot ${at} of ${who}, configuration ${in_slot.place} on the board` };
  const one = open.find(each => each.owner.guest === who && each.space === space && is_in(each, at)), place = one && one.region.first + at - one.first;
  return one ? { space, place, words: `${space === 'io' ? 'I/O port' : 'address'} ${hex(at)} of ${who}, ${hex(place)} on the board` } : null;
}

function sent_by_latch(at, latch) {
  const value = Number(at < LATCH_DATA ? 0n : latch());
  if (value >>> 31 === 0) return null;
  const place = `${two_digits(value >> 16 & 0xff)}:${two_digits(value >> 11 & 31)}.${value >> 8 & 7}`;
  return { space: 'cfg', place, words: `I/O port ${hex(at)}, by CONFIG_ADDRESS configuration ${place}` };
}

// What a function does with an access on its bus, and why: { takes, text, down }, where `down` is whether it forwards the access to the bus behind it.
function met_by_window(one, { space, place }) {
  const those = windows_of(one).filter(window => (window.space === 'io') === (space === 'io'));
  const window = those.find(each => each.open && is_in(each, place));
  if (window) return { takes: true, down: true, text: `forwards it: its ${WINDOW_NAMES[window.space]} is ${reach_of(window)}` };
  const why = each => (each.first > each.last ? `${WINDOW_NAMES[each.space]} has Base above Limit` : !each.open ? `${WINDOW_NAMES[each.space]} is disabled by Command`
    : `${WINDOW_NAMES[each.space]} is ${reach_of(each)}`);
  return { takes: false, text: `doesn't forward it: ${those.length === 0 ? 'it has no such window' : `its ${those.map(why).join(', its ')}`}` };
}

function met_by_region(one, { space, place }) {
  const those = regions_of(one).map(span_on_way)
    .filter(region => (region.kind === 'io') === (space === 'io') && is_in(region, place));
  const open = those.find(region => region.open);
  if (open) return { takes: true, down: false, text: `responds at offset ${hex(place - open.first)} of its ${open.name}, ${reach_of(open)}` };
  return { takes: false, text: those.length > 0 ? `doesn't respond: Command disables its ${those[0].name}, ${reach_of(those[0])}` : '' };
}

function met_by_number(one, { place }, bus) {
  const [, to, number] = NUMBER.exec(place), target = hex_bus(to);
  if (target === bus) return { takes: one.place.slice(3) === number, down: false, text: one.place.slice(3) === number ? 'responds' : '' };
  if (one.kind !== 'bridge') return { takes: false, text: '' };
  const [, secondary, subordinate] = one.buses.map(name => hex_bus(name) || 0), told = `Secondary ${one.buses[1]}, Subordinate ${one.buses[2]}`;
  const takes = secondary !== 0 && secondary <= target && target <= subordinate;
  return { takes, down: takes, text: `${takes ? 'forwards' : "doesn't forward"} it: ${told}` };
}

// The stops of a route: for each the bus, and what each function there does with the access and why; how the route ends; and the paths of the
// functions that respond, of which there may be several.
export function way_of(sent, functions) {
  const stops = [];
  let parent = '', bus = 0;
  for (;;) {
    const here = functions.filter(one => parent_of(one.path) === parent), number = bus;
    const met_by = one => (sent.space === 'cfg' ? met_by_number(one, sent, number) : one.kind === 'bridge' ? met_by_window(one, sent) : met_by_region(one, sent));
    const met = here.map(one => ({ one, ...met_by(one) }));
    const takers = met.filter(each => each.takes), told = met.filter(each => each.text !== '');
    // of several that claim a configuration cycle the first on its bus gets it
    if (sent.space === 'cfg') for (const each of takers.slice(1)) Object.assign(each, { takes: false, text: `${each.text.replace('forwards it', 'claims it too')}; but ${called(takers[0].one)} comes first, and gets it` });
    const name = bus === null ? 'a bus without a number' : `bus ${two_digits(bus)}`;
    stops.push({ name, path: takers[0]?.one.path ?? (parent || null), met: told.map(({ one, takes, text }) => ({ path: one.path, called: called(one), takes, text })) });
    if (takers.length === 0) return { sent, stops, ends: [], told: `Nothing on ${name} responds: a read returns all ones` };
    if (takers.length > 1 && sent.space !== 'cfg') return { sent, stops, ends: takers.map(each => each.one.path), told: `${takers.length} functions on ${name} claim it: an address conflict` };
    if (!takers[0].down) return { sent, stops, ends: [takers[0].one.path], told: `${called(takers[0].one)} responds` };
    parent = takers[0].one.path;
    bus = hex_bus(takers[0].one.buses[1]) || null;
  }
}
