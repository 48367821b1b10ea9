// Why something responds to an access, or why nothing does: what is asked about a place, and the lines of the reply.

import { party } from './findings.js';
import { read_json } from './report.js';
import { VERBS, is_read, number_of, words_in } from './forms.js';

const HEAD = 'why: '.length;
const ALL_ONES = /^(\S+): 0x(?:ff){1,4}$/;

// What is asked of firmware's board at an address, a port or a number: the line, the address with its space where it has one, and the words
// of the call.
export function question_at(space, place) {
  const is_number = space === 'cfg', address = is_number ? null : number_of(place);
  return { line: `host why ${space} ${place}`, space: is_number ? null : space, address, call: null,
    at: { space, number: is_number ? place.split(/[:.]/).map(word => parseInt(word, 16)) : [0, 0, 0], place: address ?? 0n } };
}

// What is asked of a guest at an offset of a slot, a port or an address of its own: the words of the call, and the line that the prompt for
// Python takes. It is no address of the board.
export const question_of = (guest, space, ...places) => ({ line: `why ${guest} ${space} ${places.join(' ')}`, space: null, address: null,
  call: { guest, space, slot: space === 'cfg' ? number_of(places[0]) : 0n, place: number_of(places[places.length - 1]) } });

// What a read asks that was answered by all ones, or null: firmware's of its board, a guest's of the guest.
export function question_after(line, reply, { as, guests }) {
  const [who, verb, ...places] = words_in(line).map(one => one.word), space = VERBS[verb]?.space;
  if (!is_read(line) || ALL_ONES.exec(reply)?.[1] !== who) return null;
  if (guests.includes(who)) return question_of(who, space, ...places.slice(0, -1));
  return as === 'firmware' && who === 'host' ? question_at(space, places[0]) : null;
}

// A line: the functions that it names, where they stand that it tells of, and whether it is a cause.
const one_line = (of, places = [], is_cause = false) => ({ of: of.map(party), places, number: null, is_cause });
const one_cause = (of, places) => one_line(of, places, true);
const function_if = path => (path === null ? [] : [{ path }]);

const placed = (one, space, first, last) => ({ ...party(one), space, first: BigInt(first), last: BigInt(last) });

// A region that can't respond, with the bridges that don't forward to it, and the places of all of them.
function kept_back({ causes, region }) {
  const bridges = causes.filter(one => one.bridge !== undefined).map(({ bridge, windows = [] }) => ({ path: bridge, windows }));
  const last = BigInt(region.base) + BigInt(region.size) - 1n, windows = bridges.flatMap(({ path, windows: all }) => all.filter(one => one.range !== null)
    .map(({ space, range }) => placed({ path }, space, range.first, range.last)));
  return one_cause([region, ...bridges], [placed(region, region.space, region.base, last), ...windows]);
}

// What is found at an address or at a number, a line for each thing.
const lines_on_board = ({ answer = null, forwards = [], regions = [], at_reset = '0', reached = null, takers = [], missing = null, not_found = [] }) => [
  one_line(answer === null ? function_if(reached) : [answer]), ...forwards.map(one => one_line([one])), ...regions.map(kept_back), ...(at_reset === '0' ? [] : [one_line([])]),
  ...takers.map(path => one_cause([{ path }])), ...(missing === null ? [] : [one_cause(function_if(missing.behind))]), ...not_found.map(path => one_line([{ path }]))];

// What a guest finds; `path_of` gives the function in a slot.
function lines_for_guest(found, path_of) {
  const in_slot = ({ slot, bar }) => [{ path: slot === undefined ? slot : path_of(Number(slot)), bar }].filter(({ path }) => path !== undefined);
  return [one_line(in_slot(found)), ...(found.regions ?? []).map(one => one_cause(in_slot(one)))];
}

// The lines of a text without their first word, as its JSON lists them. A line about CONFIG_ADDRESS comes first; the line that counts them is left out.
function read_lines(json, text, lines_in) {
  const { found, latch } = read_json(json), told = text.split('\n');
  return [...(latch === null ? [] : [one_line([])]), ...lines_in(found)].map((one, nth) => ({ text: told[nth].slice(HEAD), ...one }));
}

export const read_why = (json, text) => read_lines(json, text, lines_on_board);
export const read_why_of_guest = (json, text, path_of) => read_lines(json, text, found => lines_for_guest(found, path_of));
