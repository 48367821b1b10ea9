// The registers of a function of a board that is set up: as its guest is told of them, or as the board has them, which only the host reads.

import { hex_line } from './fields.js';
import { bytes_of, seen_in } from './registers.js';
import { decodes_of } from './at_reset.js';
import { owner_in_words } from './marks.js';

export class GuestRegisters {
  // `give` runs a line in the console. `view` is the element by which one says whose view is shown.
  constructor(parts, registers, board, give) {
    Object.assign(this, { parts, registers, board, give, last: null });
    parts.view.addEventListener('change', () => this.redraw());
  }

  // A board that was set up anew begins with the first function that a guest has.
  open(functions, owners) {
    this.last = null;
    this.board.chosen = (functions.find(one => owners.has(one.path)) ?? functions[0])?.path ?? null;
    if (this.board.chosen === null) this.registers.clear();
  }

  draw(machine, functions, owners) {
    this.last = { machine, functions, owners };
    const one = functions.find(each => each.path === this.board.chosen), owner = owners.get(one?.path);
    if (one === undefined) return;
    this.parts.view.parentElement.hidden = owner === undefined;
    this.parts.view.options[0].textContent = owner === undefined ? '' : owner_in_words(owner);
    const as_guest = owner !== undefined && this.parts.view.value === 'guest', [who, where] = as_guest ? [owner.guest, owner.slot] : ['host', one.place];
    const bytes = bytes_of(machine, who, where), decodes = one.kind === 'bridge' ? decodes_of(machine, one.place) : null;
    this.registers.draw(functions, seen_in(one, bytes, decodes), { bytes, whose: who, write: each => this.give(hex_line(who, where, each)),
      note: as_guest ? '' : 'The board, as the host reads it: firmware wrote these registers, and nothing writes them now.' });
  }

  redraw() { if (this.last !== null) this.draw(this.last.machine, this.last.functions, this.last.owners); }

  choose(path, takes_keys = true) {
    this.board.chosen = path;
    this.board.redraw();
    if (takes_keys) document.querySelector(`#tree [data-path="${path}"]`)?.focus({ preventScroll: true });
    this.redraw();
  }
}
