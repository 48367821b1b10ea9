// Compares where the page says that a cycle ends on its way down the tree with what the module tells of why it does.

import { AtReset, decodes_of } from '../js/at_reset.js';
import { read_json, report_in } from '../js/report.js';
import { sent_by, way_of } from '../js/way.js';
import { question_at } from '../js/why.js';

const ADDRESSES = [0n, 0xbffff000n, 0xc0000000n, 0xc0100000n, 0xc0200000n, 0xc03fffffn, 0xc0400000n, 0xc0500fffn, 0xd0000000n, 0xe0000000n, 0x400000000n, 0x4000fffffn];
// of how many functions places are asked
const MOST = 40;
const PORTS = [0n, 0xfffn, 0x1000n, 0x1040n, 0x2000n, 0x2fffn, 0x3010n, 0xffffn];

function places_of(all_functions) {
  const functions = all_functions.slice(0, MOST);
  const regions = functions.flatMap(one => (one.all_regions ?? []).flatMap(({ kind, first, size }) => [first, first + size - 1n, first + size].map(at => [kind === 'io' ? 'io' : 'mem', at])));
  const windows = functions.flatMap(one => (one.all_windows ?? []).flatMap(({ space, first, last }) => [first, last, last + 1n].map(at => [space === 'io' ? 'io' : 'mem', at])));
  const all = [...ADDRESSES.map(at => ['mem', at]), ...PORTS.map(at => ['io', at]), ...regions, ...windows].filter(([space, at]) => at < (space === 'io' ? 1n << 32n : 1n << 64n));
  const numbers = [0, 1, 2, 3, 255].flatMap(bus => [0, 1, 2, 3].map(device => `cfg ${bus.toString(16).padStart(2, '0')}:0${device}.0`));
  return [...numbers, ...functions.map(one => `cfg ${one.place}`), ...all.map(([space, at]) => `${space} 0x${at.toString(16)}`)];
}

// The places at which the way of what is sent there ends elsewhere than the module tells; of a board that set-up refuses nothing is asked.
export function ways_astray(engine, board, made) {
  const { number, text } = engine.report_json(board);
  if (number !== 0) return [];
  const { functions } = report_in(read_json(new TextDecoder().decode(text))), machine = engine.open(board).made;
  const bridges = functions.filter(one => one.kind === 'bridge'), decodes = new Map(bridges.map(one => [one.path, decodes_of(machine, one.place)]));
  machine.close();
  const now = new AtReset(made, functions, decodes);
  now.look();
  return now.given ? [] : places_of(now.functions).filter(place => {
    const { line, at } = question_at(...place.split(' ')), sent = sent_by(line, () => 0n), ends = sent && way_of(sent, now.functions).ends;
    const { answer, reached } = read_json(made.board_why_json(at)).found, told = answer?.path ?? reached ?? null;
    return sent !== null && (told === null ? ends.length > 0 : !ends.some(one => `${told}/`.startsWith(`${one}/`)));
  });
}
