// The board as it was after some of the lines that ran: a copy of its own, in which they run again.

import { AtReset } from './at_reset.js';
import { asked_of, keeping_latch } from './asked.js';
import { all_placed } from './guest_map.js';
import { NOTHING_CHANGED, Watch } from './changes.js';

// The line by which firmware gives its board to the guests of the file.
export const HANDS_OVER = /^\s*host\s+guests\s*$/;

// The move that a line did, by its reply: whose slot was left and whose was filled, or null.
export function move_in(line, reply) {
  const [who, verb, from, slot, to, target] = line.trim().split(/\s+/);
  return reply === 'host: ok' && who === 'host' && verb === 'move' ? [{ guest: from, slot: Number(slot) }, { guest: to, slot: Number(target) }] : null;
}

export const path_in = (owners, { guest, slot }) => [...owners].find(([, owner]) => owner.guest === guest && owner.slot === slot)?.[0];

// Who has which function, as a machine tells it.
export const owners_in = (held, functions) => new Map(held.seats().flatMap((owner, nth) => (owner === null ? [] : [[functions[nth].path, owner]])));

// Brings a guest that ran lines on another board into a machine, with all that it held there; the number of a refusal, or 0.
export function bring_guest(engine, machine, { board, guest, lines }) {
  const other = engine.open(new TextEncoder().encode(board)).made;
  for (const line of lines.split('\n')) asked_of(other, line);
  const number = machine.load_guest(guest, other.save_guest(guest));
  other.close();
  return number;
}

// How a board stands that answers lines: `now` is what firmware sees of it, or null.
export function moment_of({ held, functions, owners, now }) {
  const given = now === null || now.given;
  return { driven: now?.functions ?? null, problems: now?.problems ?? [], functions: now?.functions ?? functions, owners: new Map(owners),
    placed: given ? all_placed(held, now?.functions ?? functions, owners) : null };
}

// What needn't be asked again of a moment of firmware's board.
export const known_of = ({ found, functions }) => ({ found, functions });

export class Replay {
  // `board` has `open`, which gives what answers lines at the beginning; `functions` and `owners`, those of the report; `decodes`, the windows
  // that bridges have, or null where guests have the board; `seed`, what was found of the board last; `others`, its functions as they are then; `state`, which is loaded behind `prepared` lines, or null; and `seen`, what is known of each moment, by its count of lines.
  constructor(board) { Object.assign(this, { board, held: null, count: 0 }); }

  // What was found of the board before is found again without its lines, where its JSON is the same.
  begin() {
    const { told, found } = this.held ?? this.board.seed;
    this.close();
    const { open, functions, owners, decodes, others } = this.board;
    Object.assign(this, { held: open(), functions, owners: new Map(owners), count: 0 });
    Object.assign(this.held, { told, found });
    this.now = decodes === null ? null : new AtReset(this.held, functions, decodes, this.now?.functions ?? others);
    this.watch = new Watch({ read: line => (this.now === null ? asked_of(this.held, line) : keeping_latch(this.held, () => asked_of(this.held, line))),
      moment: () => moment_of(this) });
    this.load();
  }

  // Looks at the board, which was asked before if one comes back to a moment.
  look() {
    this.now?.look(this.board.seen.get(this.count));
    if (this.now) this.board.seen.set(this.count, known_of(this.now));
  }

  load() {
    const { state, prepared, functions } = this.board;
    if (state === null || this.count !== prepared || this.held.load(state.image) !== 0) return;
    this.owners = owners_in(this.held, functions);
    this.now?.look();
  }

  run(line) {
    if (HANDS_OVER.test(line)) this.now?.look();
    const reply = asked_of(this.held, line), move = move_in(line, reply), path = move && path_in(this.owners, move[0]);
    if (path) this.owners.set(path, move[1]);
    this.count += 1;
    this.load();
    return reply;
  }

  // The board after so many of these lines, and what the last of them did, as `Watch` tells it.
  go(lines, count) {
    if (this.held === null || count <= this.count) this.begin();
    while (this.count + 1 < count) this.run(lines[this.count]);
    this.look();
    this.watch.forget();
    if (this.count === count) return NOTHING_CHANGED;
    const line = lines[this.count];
    this.watch.begins(line);
    this.watch.ends(line, this.run(line));
    this.look();
    return this.watch.look();
  }

  close() {
    this.held?.close();
    this.held = null;
  }
}
