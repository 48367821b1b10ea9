// The moments of a board: what each line changes as it runs, and the board as it was after an earlier one, which a copy shows.

import { NOTHING_CHANGED, Watch, is_remark } from './changes.js';
import { known_of, moment_of, Replay } from './replay.js';
import { Steps } from './steps.js';

// Milliseconds after which the reader does nothing.
const IDLE = 700;

export class Moments {
  // `page` has `shown`, who answers lines, with functions, owners and what firmware sees; `show`, which shows another moment and is given how many
  // lines ran until then; `read`, which reads without a trace; `lines`, those that ran, with how many of them can't be gone through; `copy`, what
  // a copy of the board is made of; `choose`, `light`, and `functions`, with their numbers as they are now.
  constructor(parts, page) {
    Object.assign(this, { page, last: NOTHING_CHANGED, present: null, replay: null, spare: null, timer: 0, seen: new Map() });
    const moment = () => { const shown = page.shown(); return shown.held === null ? null : moment_of(shown); };
    this.watch = new Watch({ read: page.read, moment });
    this.steps = new Steps(parts, { show: count => this.go(count), choose: page.choose, light: page.light, functions: page.functions });
  }

  is_past() { return this.steps.is_past(); }

  // Where guests have placed their regions at the moment that is shown, or null where that isn't known.
  placed() { return (this.is_past() ? this.replay.watch : this.watch).before?.placed ?? null; }

  // What the last line changed, and whether that is past.
  about() { return { ...this.last, is_past: this.is_past() }; }

  to_now() { this.steps.to_now(); }

  begins(line) {
    this.to_now();
    this.watch.begins(line);
  }

  ends(line, reply) { this.watch.ends(line, reply); }

  // From here on nothing has changed.
  forget() {
    this.watch.forget();
    this.last = NOTHING_CHANGED;
    this.seen.clear();
    this.see();
    this.spare?.close();
    this.spare = null;
    this.open_soon();
  }

  // Keeps what is known of this moment, so that going back to it needn't ask again.
  see() {
    const { now } = this.page.shown();
    if (now !== null) this.seen.set(this.page.lines().lines.length, known_of(now));
  }

  // Opens a copy of the board while the reader does nothing, so that going back needn't wait for it.
  open_soon() {
    clearTimeout(this.timer);
    this.timer = setTimeout(() => { this.spare ??= this.page.copy().open(); }, IDLE);
  }

  copy() {
    const copy = this.page.copy();
    return { ...copy, seen: this.seen, open: () => {
      const { spare } = this;
      this.spare = null;
      this.open_soon();
      return spare ?? copy.open();
    } };
  }

  // After lines: what they changed, and through which one can go. Whether any ran.
  look() {
    const looked = this.watch.look(), { lines, hidden } = this.page.lines();
    if (looked !== null) this.last = looked;
    this.see();
    this.steps.count([hidden, ...lines.flatMap((line, nth) => (nth < hidden || is_remark(line) ? [] : [nth + 1]))]);
    return looked !== null;
  }

  // Shows the board as it was after so many lines, or as it is.
  go(count) {
    this.present ??= { ...this.page.shown(), last: this.last };
    if (this.is_past()) {
      this.replay ??= new Replay(this.copy());
      this.last = this.replay.go(this.page.lines().lines, count);
      this.page.show(this.replay, count);
      return;
    }
    const { present, replay } = this;
    Object.assign(this, { last: present.last, present: null, replay: null });
    this.page.show(present, count);
    replay?.close();
  }
}
