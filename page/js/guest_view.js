// Each guest's own addresses beside the board's: what its registers open now, and where on the board that stands. What its Command disables
// is drawn in dashes where its registers put it.

import { hex, size_in_words } from './report.js';
import { badge, head_of, make, mark_of, named_row, when_pointed } from './marks.js';
import { before_box, ghost_box, region_box, svg, ticks } from './bars.js';
import { open_among } from './guest_map.js';
import { question_of } from './why.js';

const BAR = 20, LINKS = 36, EDGE = 18;
const SPACES = { io: 'I/O', mem: 'Memory' };

// From addresses to places in a width: order is kept and gaps are short, so that far and small regions are both seen.
function scale_of(spans, width) {
  const ends = [...new Set(spans.flatMap(({ first, last }) => [first, last + 1n]))].sort((a, b) => (a < b ? -1 : 1));
  const sorted = spans.slice().sort((a, b) => (a.first < b.first ? -1 : 1));
  const weights = [];
  let next = 0, until = 0n;
  for (let nth = 0; nth + 1 < ends.length; nth += 1) {
    for (; next < sorted.length && sorted[next].first <= ends[nth]; next += 1) {
      if (sorted[next].last + 1n > until) until = sorted[next].last + 1n;
    }
    weights.push(ends[nth] < until ? 1 + Math.log2(Number(ends[nth + 1] - ends[nth])) / 16 : 0.3);
  }
  const total = weights.reduce((sum, one) => sum + one, 0.6), places = new Map();
  let at = 0.3;
  ends.forEach((end, nth) => { places.set(end, at / total * width); at += weights[nth] ?? 0; });
  return { at: address => places.get(address), address_at: x => address_between(x, ends, places) };
}

// The address at a place between the first end and the last, or null.
function address_between(x, ends, places) {
  const nth = ends.findLastIndex(end => places.get(end) <= x), [from, to] = [ends[nth], ends[nth + 1]];
  if (to === undefined || from === undefined) return null;
  const share = (x - places.get(from)) / (places.get(to) - places.get(from));
  return from + BigInt(Math.floor(share * 1000000)) * (to - from) / 1000000n;
}

const on_board = ({ region }) => ({ first: region.first, last: region.first + region.size - 1n });

const in_words = one => `guest ${one.owner.guest}, slot ${one.owner.slot} ${one.region.name}: ${hex(one.first)} to ${hex(one.last)}, `
  + `on the board ${hex(one.region.first)} to ${hex(on_board(one).last)} (${one.of.place}, ${size_in_words(one.region.size)})`;

const alone_in_words = one => `guest ${one.owner.guest}, slot ${one.owner.slot} ${one.region.name}: ${hex(one.first)} to ${hex(one.last)}, ${size_in_words(one.region.size)}`;
const shut_in_words = one => `${alone_in_words(one)}, disabled by Command`;

const name_of = ({ owner, region }) => `${owner.guest} ${owner.slot} ${region.name}`;

// Where spans begin, and then where they end.
const ends_of = (spans, scale) => spans.map(({ first }) => ({ x: scale.at(first), text: hex(first) }))
  .concat(spans.map(({ last }) => ({ x: scale.at(last + 1n), text: hex(last) })));

// A guest's bar above, the board's below, and a band from each region to its place. A click on the guest's bar asks at its address.
// What the last line moved stood in an edge of dashes.
function picture({ those, shut, all, were }, scales, marks, width, { tell, ask }) {
  const top = EDGE, below = top + BAR + LINKS;
  const picture = svg('svg', { height: below + BAR + EDGE, width, class: 'map', role: 'group', 'aria-label': 'What this guest enables, and where it is on the board; Enter asks at the start of a region' });
  for (const y of [top, below]) picture.append(svg('rect', { x: 0, y, width, height: BAR, class: 'well' }));
  for (const { first, last } of all.map(on_board)) {
    const x = scales.board.at(first);
    picture.append(svg('rect', { x, y: below, width: scales.board.at(last + 1n) - x, height: BAR, class: 'window' }));
  }
  for (const one of those.slice().reverse()) picture.append(joined(one, scales, marks, top, below, { tell, ask }));
  for (const one of shut) picture.append(ghost_of(one, those, scales.guest, top));
  for (const { was, now } of were) {
    const x = was && scales.guest.at(was.first);
    if (was && was.first !== now?.first) picture.append(before_box(x, scales.guest.at(was.last + 1n) - x, top, BAR, alone_in_words(was)));
    if (now) picture.querySelector(`[data-one="${name_of(now)}"]`)?.classList.add('changed');
  }
  picture.append(...ticks(ends_of([...those, ...shut], scales.guest), width, top, 1, -1), ...ticks(ends_of(those.map(on_board), scales.board), width, below + BAR, 1, 1));
  picture.addEventListener('click', event => {
    const box = picture.getBoundingClientRect(), y = event.clientY - box.top, address = scales.guest.address_at((event.clientX - box.left) / box.width * width);
    if (top <= y && y < top + BAR && address !== null) ask(address, event.target.closest('.joined')?.dataset.one);
  });
  return picture;
}

// A region that Command disables, with its name where no region is open.
function ghost_of(one, those, scale, top) {
  const x = scale.at(one.first), is_free = those.every(({ first, last }) => last < one.first || one.last < first);
  const names = is_free ? [`slot ${one.owner.slot} ${one.region.name}`, one.region.name] : [];
  const all = ghost_box(x, scale.at(one.last + 1n) - x, top, BAR, names, BAR, ' shut', svg('title', {}, shut_in_words(one)));
  all.dataset.one = name_of(one);
  return all;
}

function joined(one, scales, marks, top, below, { tell, ask }) {
  const a = scales.guest.at(one.first), b = scales.guest.at(one.last + 1n), place = on_board(one);
  const c = scales.board.at(place.first), d = scales.board.at(place.last + 1n), mark = mark_of(one.owner, marks);
  const all = svg('g', { class: 'joined', tabindex: 0, role: 'button', 'aria-label': in_words(one), 'data-one': name_of(one) },
    svg('path', { d: `M${a} ${top + BAR}L${b} ${top + BAR}L${d} ${below}L${c} ${below}Z`, class: 'link' }),
    region_box(a, b - a, top, BAR, mark, [`slot ${one.owner.slot} ${one.region.name}`, one.region.name]),
    region_box(c, d - c, below, BAR, mark, [`${one.of.place} ${one.region.name}`, one.of.place]));
  all.style.setProperty('--hue', mark.hue);
  when_pointed(all, () => tell(one), () => tell(null));
  all.addEventListener('keydown', event => { if (event.key === 'Enter') ask(one.first, name_of(one)); });
  return all;
}

function table_of(all, marks) {
  const names = ['Guest', 'Slot', 'Register', "Guest's addresses", "Board's addresses", 'Size'];
  return make('table', 'opened', head_of(names), ...all.map(one => {
    const guest = make('td', '', badge(mark_of(one.owner, marks)), one.owner.guest);
    const row = named_row(names, [guest, ...[one.owner.slot, `${one.region.name} ${one.region.kind}`, `${hex(one.first)} to ${hex(one.last)}${one.open ? '' : ', disabled'}`,
      `${hex(one.region.first)} to ${hex(on_board(one).last)}, ${one.of.place}`, size_in_words(one.region.size)].map(text => make('td', '', text))]);
    row.dataset.path = one.of.path;
    return row;
  }));
}

// What to type where nothing is open: the line that opens the first function of the first guest.
function hint(owners) {
  const [first] = owners.values();
  if (first === undefined) return make('p', 'hint', 'No guest has a function.');
  return make('p', 'hint', 'Nothing is enabled: no guest has set a Command bit. ', make('code', '', `${first.guest} cw ${first.slot} 4 2 3`),
    ` enables the function in slot ${first.slot} of guest ${first.guest}.`);
}

// The guests that have functions and nothing open, where others have.
function shut_of(all, owners, marks) {
  const open = new Set(all.map(one => one.owner.guest)), held = new Set([...owners.values()].map(one => one.guest));
  return [...marks].filter(([guest]) => held.has(guest) && !open.has(guest)).map(([guest, mark]) => make('div', 'whose', badge(mark), `guest ${guest}: nothing is enabled`));
}

// `light` is given the path of a function, or null; `question` is what one asks, whose box stands in `below`.
export class GuestMaps {
  // `below` takes what was asked in a bar that is gone.
  constructor(into, light, question, below) {
    Object.assign(this, { into, light, question, below, seen: '', places: new Map(), outer: 0 });
    new ResizeObserver(() => { this.outer = into.clientWidth; }).observe(into);
  }

  // The width, asked of the browser once, as it lays the page out to answer.
  width() {
    if (this.outer === 0) this.outer = this.into.clientWidth;
    return this.outer;
  }

  // Where the reply stands to what is asked in a guest's bar: below that bar.
  place_of(guest, space) {
    const key = `${guest} ${space}`;
    if (!this.places.has(key)) this.places.set(key, make('div', ''));
    return this.places.get(key);
  }

  // A region that one asks about takes the keys back, by its name, if it is still open.
  ask(guest, space, address, name) {
    const back = () => [...this.into.querySelectorAll('.joined')].find(one => one.dataset.one === name) ?? null;
    this.question.ask(question_of(guest, space, hex(address)), this.place_of(guest, space), back);
  }

  figure(space, placed, marks, told, changes) {
    const width = Math.max(this.width(), 240), all = open_among(placed);
    const were = changes.filter(({ was, now }) => (was ?? now)?.owner && (was ?? now).space === space);
    const scales = { guest: scale_of([...placed, ...were.flatMap(one => one.was ?? [])], width), board: scale_of(all.map(on_board), width) };
    const figure = make('div', 'space', make('div', 'title', `${SPACES[space]}: in the order of addresses; gaps and sizes are not to scale`));
    const tell = one => { told.textContent = one === null ? '' : in_words(one); this.light(one?.of.path ?? null); };
    for (const guest of new Set(placed.map(one => one.owner.guest))) {
      const line = make('div', 'whose', badge(marks.get(guest)), `guest ${guest} above, the board below`);
      const own = placed.filter(one => one.owner.guest === guest), shut = own.filter(one => !one.open);
      const ask = (address, name) => this.ask(guest, space, address, name);
      const drawn = { those: open_among(own), shut, all, were: were.filter(({ was, now }) => (was ?? now).owner.guest === guest) };
      figure.append(line, picture(drawn, scales, marks, width, { tell, ask }), this.place_of(guest, space));
    }
    return figure;
  }

  // `placed` is where guests put their regions, and `changes` what the last line changed.
  draw(placed, owners, marks, changes) {
    const all = placed.slice().sort((a, b) => [...marks.keys()].indexOf(a.owner.guest) - [...marks.keys()].indexOf(b.owner.guest));
    const now = all.map(one => (one.open ? in_words : shut_in_words)(one)).join('\n') + this.width() + [...owners.keys()] + changes.map(one => `${one.name} ${one.before}`);
    if (now === this.seen && all.length > 0) return;
    this.seen = now;
    const empty = open_among(all).length === 0 ? [hint(owners)] : [], figures = all.length === 0 ? [] : this.figures_of(all, owners, marks, changes);
    this.into.replaceChildren(...empty, ...figures);
    this.below.replaceChildren(...[...this.places.values()].filter(one => one.firstChild !== null && !this.into.contains(one)));
  }

  figures_of(all, owners, marks, changes) {
    const told = make('div', 'told');
    told.setAttribute('role', 'status');
    const figures = Object.keys(SPACES).map(space => all.filter(one => one.space === space).length > 0
      ? [this.figure(space, all.filter(one => one.space === space), marks, told, changes)] : []).flat();
    const scroll = Object.assign(make('div', 'scroll few', table_of(all, marks)), { tabIndex: 0 });
    const open = open_among(all);
    return [...figures, ...(open.length === 0 ? [] : shut_of(open, owners, marks)), told, scroll];
  }
}
