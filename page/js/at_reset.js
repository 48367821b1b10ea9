// A board from reset on, as firmware sees it: where functions are found, what they open, what is wrong and what is lacking.

import { TO_BYTES } from './engine.js';
import { hex, parent_of, two_digits } from './report.js';
import { keeping_latch } from './asked.js';
import { UNNUMBERED } from './names.js';
import { same_values } from './same.js';

const COMMAND = 0x04, BUSES = 0x18;
const NO_WINDOW = { first: 1n, last: 0n, open: false };

// Which windows a bridge has, as set-up left them: one that is there is never left with all bits 0.
export function decodes_of(machine, place) {
  const [io, pref] = [0x1c, 0x24].map(offset => Number(machine.number(`host cr ${place} ${hex(offset)} 4`)));
  return { io: (io & 0xffff) === 0 ? 0 : (io & 15) === 1 ? 32 : 16, mem: 32, pref: pref === 0 ? 0 : (pref & 15) === 1 ? 64 : 32 };
}

// Where the regions and windows of a function stand, and whether Command opens them, as the module tells it.
const regions_in_row = (one, { firsts, opens }) => one.regions
  .map(region => ({ ...region, first: firsts[Number(region.name.slice(3))], open: opens[region.kind === 'io' ? 'io' : 'mem'] }));
const windows_in_row = ({ windows, opens }, decodes) => windows.filter(({ space }) => decodes?.[space])
  .map(({ space, first, last, is_there }) => ({ space, ...(is_there ? { first, last, open: opens[space] } : NO_WINDOW) }));

export class AtReset {
  // `functions` are the report's; `decodes` has the windows of each bridge, by its path. `others` are functions as another moment has them: one
  // that is the same here is taken from there, so that one sees at once that nothing of it changed.
  constructor(driven, functions, decodes, others = []) {
    Object.assign(this, { driven, declared: functions, decodes, others, cycles: new Map(), functions: [], given: false, problems: [], lacks: [], found: null });
  }

  // Looks at all functions, and tells which problems came and which went. Once the board is given to its guests nothing of it changes. What is
  // known of this moment already isn't asked again.
  look(known) {
    const before = this.problems;
    this.ask(known?.found);
    if (known) this.functions = known.functions;
    else if (!this.given) keeping_latch(this.driven, () => this.look_at_functions());
    const [old, now] = [before, this.problems].map(those => new Set(those.map(one => one.text)));
    return { came: [...now].filter(text => !old.has(text)), gone: [...old].filter(text => !now.has(text)) };
  }

  // What is wrong and what is lacking. It isn't told once the board is given to its guests: nothing was wrong then, and what they do changes
  // neither that nor what was lacking.
  ask(known) {
    const found = known === undefined ? this.driven.findings() : known;
    this.given = found === null;
    Object.assign(this, found ?? { problems: [] }, { found });
  }

  look_at_functions() {
    const lost = new Map(this.problems.filter(one => one.number !== null).map(one => [one.of[0].path, one.text]));
    this.functions = this.declared.map((one, nth) => this.function_now(one, nth, lost.get(one.path) ?? null));
  }

  // A function is as it was where the module tells the same of it, and firmware reads the same.
  function_now(one, nth, lost) {
    const before = this.functions[nth], other = this.others[nth], told = this.driven.function_at(nth, (before ?? other)?.told);
    const values = this.values_of(one, before, told, lost !== null);
    if (told === before?.told && values === before.values && lost === before.lost) return before;
    if (told === other?.told && lost === other.lost && same_values(values, other.values)) return other;
    const bus = told.place.slice(0, 2), all_regions = regions_in_row(one, told), decodes = this.decodes.get(one.path), all_windows = windows_in_row(told, decodes);
    const now = { ...one, place: told.place, bus: bus === '00' && one.depth > 0 ? UNNUMBERED : bus, lost, told, values, decodes, all_regions, all_windows,
      regions: all_regions.filter(region => region.open), windows: all_windows.filter(window => window.open) };
    if (one.kind === 'bridge') {
      now.buses = [0, 8, 16].map(shift => values.get(BUSES) >> shift & 0xff).map(number => (number === 0 ? UNNUMBERED : two_digits(number)));
      if (one.depth === 0) now.buses[0] = two_digits(values.get(BUSES) & 0xff);
    }
    return now;
  }

  // Command, and a bridge's numbers of buses: of a function that no cycle finds as they were read last, with what Command opens now.
  values_of(one, before, told, is_lost) {
    const last = before?.values ?? new Map([[COMMAND, 0], [BUSES, 0]]), { place, opens } = told;
    const now = is_lost ? [[COMMAND, last.get(COMMAND) & ~3 | (opens.io ? 1 : 0) | (opens.mem ? 2 : 0)]]
      : this.cycles_at(place, one).map(([offset, line]) => [offset, this.driven.register(line)]);
    return now.every(([offset, value]) => last.get(offset) === value) ? last : new Map([...last, ...now]);
  }

  // At which number a function is looked for, and the bus number of the bridge above it by which that is so.
  way_to(path) {
    const at = name => this.functions.find(one => one.path === name), above = at(parent_of(path)), [, bus] = above.buses;
    return `${path} is looked for at ${at(path).place}: the bridge above it, ${above.path}, has Secondary ${bus === UNNUMBERED ? '00, so its bus has no number' : bus}`;
  }

  // The lines that read a function's registers at a number, with the registers: they are written once while the number stays.
  cycles_at(place, one) {
    const known = this.cycles.get(one.path);
    if (known?.place === place) return known.lines;
    const lines = (one.kind === 'bridge' ? [COMMAND, BUSES] : [COMMAND]).map(offset => [offset, TO_BYTES.encode(`host cr ${place} ${hex(offset)} 4`)]);
    this.cycles.set(one.path, { place, lines });
    return lines;
  }
}
