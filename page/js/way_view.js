// An access on its way down the tree: it moves stop by stop, by itself or by keys, and each stop shows which functions forward it or respond to it.

import { make, make_button } from './marks.js';

const PAUSE_ON_WAY = 900;
const GO = 'F4';

export class WayView {
  // `way` takes it, `follow` begins it, and along `tree` a mark goes; `still` tells that nothing may move by itself; `find` gives what
  // goes down the tree or null, `way_of` its way, and `passed` is told of what is sent and of each stop.
  constructor({ way: into, follow, tree }, { still, find, way_of, passed }) {
    Object.assign(this, { into, follow, tree, still, find, way_of, passed, way: null, at: 0, timer: 0 });
    follow.addEventListener('click', () => this.begin());
    addEventListener('keydown', event => {
      if (event.key !== GO || event.altKey || event.ctrlKey || event.metaKey) return;
      event.preventDefault();
      if (this.way === null) this.begin();
      else this.go(this.at + 1);
    });
    into.addEventListener('keydown', event => {
      const step = { ArrowRight: 1, ArrowLeft: -1 }[event.key];
      if (step !== undefined && this.way !== null) { event.preventDefault(); this.go(this.at + step); }
      if (event.key === 'Escape') this.leave();
    });
  }

  // After a line: its way can be followed, where it has one.
  offer() {
    this.follow.hidden = this.way !== null || this.find() === null;
    this.mark();
  }

  begin() {
    const sent = this.find();
    if (sent === null) return;
    this.way = this.way_of(sent);
    this.at = 0;
    this.draw();
    if (!this.still) this.play();
  }

  play() {
    clearTimeout(this.timer);
    this.timer = setTimeout(() => { if (this.way !== null && this.at + 1 < this.way.stops.length) { this.at += 1; this.draw(); this.play(); } }, PAUSE_ON_WAY);
  }

  // Another stop, by hand: it goes on by itself no more.
  go(at) {
    clearTimeout(this.timer);
    this.at = Math.min(Math.max(at, 0), this.way.stops.length - 1);
    this.draw();
  }

  // Another line, or another moment, has another way.
  forget() {
    clearTimeout(this.timer);
    if (this.way === null) return;
    this.way = null;
    this.tree.querySelector('.cycle')?.remove();
    this.into.replaceChildren();
    this.passed(null);
  }

  leave() {
    this.forget();
    this.follow.focus({ preventScroll: true });
  }

  draw() {
    const { stops, sent, told } = this.way, is_end = this.at === stops.length - 1;
    const had = this.into.contains(document.activeElement) ? document.activeElement.title : '';
    const acts = [['‹ Stop', 'The stop before (left arrow)', () => this.go(this.at - 1)],
      ['Stop ›', 'The next stop (right arrow)', () => this.go(this.at + 1)], ['Close', 'Escape', () => this.leave()]];
    const end = make('p', '', is_end ? `${told}.` : '');
    end.setAttribute('role', 'status');
    const buttons = make('div', 'bar', ...acts.map(([text, title, act]) => Object.assign(make_button(text, act), { title })), end);
    const list = make('ol', '', ...stops.slice(0, this.at + 1).map(({ name, met }) => make('li', '', `${name}: `,
      ...met.map(({ called: one, takes, text }) => make('div', takes ? 'takes' : 'drops', `${one} ${text}`)))));
    this.into.replaceChildren(buttons, make('p', 'unit', `From bus 00 down: ${sent.words}`), list);
    this.into.parentElement.scrollTop = this.into.offsetHeight;
    (buttons.querySelector(`[title="${had}"]`) ?? buttons.children[1]).focus({ preventScroll: true });
    this.passed(sent);
  }

  // The dot is at the function that forwards it or responds, and the functions that the stop names are marked.
  mark() {
    if (this.way === null) return;
    const { path, met } = this.way.stops[this.at], chip = this.tree.querySelector(`[data-path="${path}"]`);
    for (const one of this.tree.querySelectorAll('.took, .dropped, .passed')) one.classList.remove('took', 'dropped', 'passed');
    for (const { path: each, takes } of this.way.stops.slice(0, this.at + 1).flatMap(stop => stop.met)) {
      if (takes) this.tree.querySelector(`[data-path="${each}"]`)?.classList.add('passed');
    }
    for (const { path: each, takes } of met) this.tree.querySelector(`[data-path="${each}"]`)?.classList.add(takes ? 'took' : 'dropped');
    const dot = this.tree.querySelector('.cycle') ?? this.tree.appendChild(make('span', 'cycle'));
    dot.setAttribute('aria-hidden', true);
    if (chip === null) { dot.style.transform = 'translate(0, 0)'; return; }
    const [box, room] = [chip, this.tree].map(one => one.getBoundingClientRect());
    dot.style.transform = `translate(${box.left - room.left + this.tree.scrollLeft - 6}px, ${box.top - room.top + this.tree.scrollTop - 6}px)`;
  }
}
