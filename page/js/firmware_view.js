// The reader as firmware: what its cycles read of a board from reset on, its problems and its lacks, and the registers of one function.

import { AtReset, decodes_of } from './at_reset.js';
import { texts_by_path } from './findings.js';
import { texts_of_changes } from './changes.js';
import { Findings } from './findings_view.js';
import { hex_line } from './fields.js';
import { with_numbers } from './names.js';
import { count_in_words, two_digits } from './report.js';
import { keeping_latch } from './asked.js';
import { bytes_of, seen_in } from './registers.js';

// Who has which function before firmware gave its board to guests.
const NOBODY = new Map(), NOT_GIVEN = [NOBODY, NOBODY];

export class Firmware {
  // `give` runs a line in the console.
  constructor(parts, board, addresses, registers, light, give) {
    Object.assign(this, { board, addresses, registers, give, driven: null, now: null, came: [], is_drawn: false });
    const choose = path => this.choose(path), functions = () => this.now?.functions ?? [];
    this.problems = new Findings({ total: parts.total, list: parts.audit, few: 8 }, light, choose, functions);
    this.lacks = new Findings({ total: parts.left, list: parts.lacking, few: 4 }, light, choose, functions);
  }

  // A board at reset, with the functions of its report and its machine after set-up; without a report nothing is drawn.
  open(driven, machine, functions) {
    this.driven = driven;
    if (driven === null) return;
    const bridges = functions.filter(one => one.kind === 'bridge');
    this.decodes = new Map(bridges.map(one => [one.path, decodes_of(machine, one.place)]));
    this.now = new AtReset(driven, functions, this.decodes);
    this.now.look();
    this.board.chosen = (bridges[0] ?? functions[0])?.path ?? null;
  }

  // Another moment of the board: what answers lines then, and what is seen of it.
  show(driven, now) { Object.assign(this, { driven, now, came: [], is_drawn: false }); }

  close() {
    this.driven?.close();
    Object.assign(this, { driven: null, now: null, came: [], is_drawn: false });
    this.board.chosen = null;
  }

  // Problems that came and went since the last look.
  look() {
    if (this.now === null) return { came: [], gone: [] };
    const found = this.now.look();
    Object.assign(this, { came: found.came, is_drawn: false });
    return found;
  }

  // `owners` and `marks` are those of guests, who have nothing until the board is given to them; `asked` is what one asks, with its causes, and
  // `changes` what the last line changed.
  draw(apertures, owners, marks, asked, changes) {
    if (this.now === null) { this.problems.draw([], ''); this.lacks.draw([], ''); return; }
    const { functions, problems, lacks, given } = this.now, whose = given ? [owners, marks] : NOT_GIVEN;
    this.draw_findings(problems, lacks);
    this.is_drawn = true;
    if (functions.length === 0) return;
    this.board.draw(functions, ...whose, { troubles: texts_by_path(problems), lacks: texts_by_path(lacks), causes: texts_by_path(asked.causes),
      changes: texts_of_changes(changes) });
    this.addresses.draw(functions, apertures, ...whose, { problems, lacks, asked, changes }, 'The board file has no aperture.');
    this.draw_registers();
  }

  draw_findings(problems, lacks) {
    const nothing = problems.length > 0 ? 'nothing else' : 'nothing: the board is ready';
    this.problems.draw(problems, problems.length > 0 ? count_in_words(problems.length, 'problem') : 'ok', this.came);
    this.problems.total.classList.toggle('wrong', problems.length > 0);
    this.lacks.draw(lacks, lacks.length > 0 ? `${lacks.length}` : nothing);
  }

  // The registers of the selected function, with its bytes where a cycle finds it. Once guests have the board theirs are shown.
  draw_registers() {
    if (this.now.given) return;
    const { functions } = this.now, one = functions.find(each => each.path === this.board.chosen);
    if (one === undefined) { this.registers.clear(); return; }
    const bytes = one.lost === null ? keeping_latch(this.driven, () => bytes_of(this.driven, 'host', one.place)) : null;
    const lost = one.lost === null ? '' : `No configuration cycle reaches it, so nothing can be written. Bases, windows and what Command enables are as they are now; the rest is what was read last. ${with_numbers(one.lost, functions)}`;
    this.registers.draw(functions, bytes === null ? one : seen_in(one, bytes, one.decodes),
      { bytes, note: lost, whose: 'host', write: each => this.give(hex_line('host', one.place, each)) });
  }

  // Of a board without a report no function is drawn.
  choose(path, takes_keys = true) {
    if (this.now === null || this.now.functions.length === 0) return;
    this.board.chosen = path;
    this.board.redraw();
    if (takes_keys) document.querySelector(`#tree [data-path="${path}"]`)?.focus({ preventScroll: true });
    this.draw_registers();
  }

  // A bridge's Secondary Bus Number, or what the first function is; nothing where the board is refused.
  first_line() {
    if (this.driven === null) return '';
    const functions = this.now?.functions ?? [], bridge = functions.find(one => one.kind === 'bridge');
    return bridge ? `host cw ${bridge.place} 0x19 1 1` : `host cr ${functions[0]?.place ?? this.first_place()} 0 4`;
  }

  // The first device that answers on bus 0, of a board without a report.
  first_place() {
    const places = Array.from({ length: 32 }, (_, device) => `00:${two_digits(device)}.0`);
    return places.find(place => this.driven.number(`host cr ${place} 0 4`) !== 0xffffffffn) ?? places[0];
  }
}
