// A bar for each aperture, to scale: windows by the depth of their bus, regions below them, gaps between. A bar can be
// zoomed into, and read by mouse and by keys, and asked why something answers at an address or doesn't. What Command disables
// is drawn in dashes. Beside a bar that firmware fills is what its registers put below and above the range that is shown.

import { aperture_of, hex, size_in_words } from './report.js';
import { make, make_button, mark_of } from './marks.js';
import { bang_at, before_box, cause_box, ghost_box, gutter_box, gutter_of, lack_at, name_in, question_mark_at, region_box, svg, ticks } from './bars.js';
import { called } from './names.js';
import { at_address, change_of, findings_in_words, holds_address, least, most, naming, span_alone, span_in_words, spans_by_aperture } from './spans.js';
import { question_at } from './why.js';
import { same_list, same_owners } from './same.js';

const ROW = 20, TICKS = 36, NAMED_BESIDE = 6;
const NAMES = { io: 'I/O', mem: 'Memory', pref: 'Prefetchable memory' };
const keys_in_words = can_ask => `arrow keys go from one to the next, ${can_ask ? 'Enter asks what responds there and why, +' : 'Enter or +'} zooms into it, Escape shows all`;

// Where an address is in a width, and what is at a share of it.
const place_of = (address, [first, last], width) => Number((address - first) * 1000000n / (last - first + 1n)) / 1000000 * width;
const address_at = (share, [first, last]) => first + BigInt(Math.floor(share * 1000000)) * (last - first + 1n) / 1000000n;
const is_within = (span, range) => span.first <= range[1] && range[0] <= span.last;

// The used part of an aperture in a thin strip of the whole, the part that is shown, and the address that is asked about.
function strip_of(used, shown, aperture, width, asked) {
  const strip = svg('svg', { class: 'strip', width, height: 9, 'aria-hidden': 'true' });
  for (const [range, name] of [[used, 'used'], [shown, 'shown']]) {
    const from = place_of(most(range[0], aperture[0]), aperture, width), to = place_of(least(range[1], aperture[1]) + 1n, aperture, width);
    strip.append(svg('rect', { x: from, y: 1, width: Math.max(to - from, 3), height: 7, class: name }));
  }
  if (asked !== null && aperture[0] <= asked && asked <= aperture[1]) {
    strip.append(svg('rect', { x: place_of(asked, aperture, width), y: 0, width: 2, height: 9, class: 'asked' }));
  }
  return strip;
}

// Whether a change is of a place on the board, before the last line or after it.
const is_of_place = ({ was, now }) => (was ?? now) !== null && (was ?? now).owner === undefined;

// Whether bars that are drawn are as they would be drawn again.
function bars_are_as_drawn(one, other) {
  const [{ problems, lacks, asked, changes }, old] = [one.findings, other.findings];
  return ['apertures', 'marks', 'none', 'place', 'can_ask'].every(name => one[name] === other[name]) && same_list(one.functions, other.functions)
    && same_owners(one.owners, other.owners) && same_list(problems, old.problems) && same_list(lacks, old.lacks)
    && asked.space === old.asked.space && asked.address === old.asked.address && same_list(asked.causes, old.asked.causes)
    && !changes.some(is_of_place) && !old.changes.some(is_of_place);
}

export class Addresses {
  // `light` is given the path of the function that is pointed at, or null; `question` is what one asks.
  constructor(into, light, question) {
    Object.assign(this, { into, light, question, ranges: new Map(), at: new Map(), width: 0, outer: 0, board: null, last: null });
    new ResizeObserver(() => { if (this.outer !== into.clientWidth) { this.outer = into.clientWidth; this.width = 0; this.redraw(); } }).observe(into);
  }

  forget() { this.ranges.clear(); this.at.clear(); Object.assign(this, { width: 0, last: null }); }

  // `findings` are problems and lacks, with the address and the space at which they are seen, what is asked, and what the last line changed;
  // `none` is told where there is nothing to draw.
  draw(functions, apertures, owners, marks, findings, none = '') {
    const now = { functions, apertures, owners: new Map(owners), marks, findings, none, place: this.question.place, can_ask: this.question.can_ask() }, { last } = this;
    if (last !== null && this.width > 0 && bars_are_as_drawn(now, last)) return;
    this.last = now;
    const spans = spans_by_aperture(functions, apertures, Object.keys(NAMES)), is_driven = functions.some(one => one.all_regions !== undefined);
    const deepest = is_io => Math.max(0, ...functions.filter(one => [...one.regions, ...one.all_regions ?? []].some(({ kind }) => (kind === 'io') === is_io)
      || [...one.windows, ...one.all_windows ?? []].some(({ space }) => (space === 'io') === is_io)).map(one => one.depth));
    this.board = { spans, apertures, owners, marks, findings: { ...findings, functions }, none, is_driven, rows: { io: deepest(true) + 1, mem: deepest(false) + 1 } };
    this.redraw();
  }

  // A bar that has the keys keeps them, and a question whose bar is gone stands below the others.
  redraw() {
    if (this.board === null) return;
    const count = Object.keys(NAMES).filter(space => this.is_drawn(space)).length;
    // asked once for each width, as the browser lays the page out to answer
    if (this.width === 0 || count !== this.count) {
      this.into.style.setProperty('--bars', Math.max(count, 1));
      this.width = parseFloat(getComputedStyle(this.into).gridTemplateColumns) || this.into.clientWidth;
      this.count = count;
    }
    const keys_at = document.activeElement?.matches('.bars') ? document.activeElement.closest('[data-space]').dataset.space : null;
    const drawn = Object.keys(NAMES).map(space => ({ space, figure: this.figure(space) })), figures = drawn.map(one => one.figure).filter(one => one !== null);
    const without = drawn.filter(one => one.figure === null).flatMap(one => this.question.below(one.space));
    this.into.replaceChildren(...(figures.length > 0 ? figures : [make('p', 'hint', this.board.none)]), ...without);
    if (keys_at !== null) this.bar_of(keys_at)?.focus({ preventScroll: true });
  }

  bar_of(space) { return this.into.querySelector(`[data-space=${space}] .bars`); }

  ask(space, address) { this.question.ask(question_at(space === 'io' ? 'io' : 'mem', hex(address)), space, () => this.bar_of(space)); }

  // Shows another range of a bar, or all; the bar keeps the keys.
  zoom(space, range) {
    if (range === null) this.ranges.delete(space);
    else this.ranges.set(space, range);
    const old = this.into.querySelector(`[data-space=${space}]`), fresh = this.figure(space);
    old.replaceWith(fresh);
    this.bar_of(space).focus({ preventScroll: true });
  }

  // Shows what one is at, or else the middle half of what is shown.
  zoom_in(space, spans, range) {
    const one = spans[this.at.get(space)], wanted = one ? this.around(one) : range, quarter = (range[1] - range[0] + 1n) / 4n;
    const is_shown = wanted[0] === range[0] && wanted[1] === range[1];
    this.zoom(space, is_shown ? [range[0] + quarter, range[1] - quarter] : wanted);
  }

  // An aperture of the file has its bar even if nothing is in it, so that lines don't move what is below.
  is_drawn(space) { return this.board.apertures[space] !== undefined || this.spans_and_places_before(space).length > 0; }

  figure(space) {
    if (!this.is_drawn(space)) return null;
    const { apertures } = this.board, spans = this.board.spans.get(space), findings = this.findings_in(space);
    const [aperture, used] = this.extent_of(this.spans_and_places_before(space), apertures[space]), range = this.ranges.get(space) ?? used;
    const figure = make('div', 'space'), told = make('div', 'told'), bar = this.bar(space, spans, range, findings);
    figure.dataset.space = space;
    told.setAttribute('role', 'status');
    bar.setAttribute('aria-label', `${NAMES[space]}: ${keys_in_words(this.question.can_ask())}`);
    this.follow_pointer(bar, told, space, spans, range, findings);
    this.follow_keys(bar, told, space, spans, range, findings);
    figure.append(this.title(space, spans, range, aperture), strip_of(used, range, aperture, this.width, findings.asked.address), bar, told,
      ...this.question.below(space));
    return figure;
  }

  findings_in(space) {
    const { findings: { problems, lacks, asked, changes, functions }, apertures } = this.board;
    const is_here = one => one.address !== null && aperture_of(one.space, one.address, apertures) === space;
    return { problems: problems.filter(is_here), lacks: lacks.filter(is_here), asked: { ...asked, address: is_here(asked) ? asked.address : null }, changes, functions };
  }

  spans_and_places_before(space) {
    const { spans, findings: { changes } } = this.board;
    return [...spans.get(space), ...this.places_before(space, changes)];
  }

  // Where the board's regions and windows were that the last line moved, in one aperture.
  places_before(space, changes) {
    return changes.filter(({ was, now }) => was !== null && was.owner === undefined && (was.first !== now?.first || was.last !== now?.last)
      && aperture_of(was.space, was.first, this.board.apertures) === space)
      .map(({ was, path, called: one, name, before }) => ({ ...was, depth: path.split('/').length - 1, text: `${one} ${name} ${before}` }));
  }

  // Where regions and windows stand that causes name, in one aperture, with the depth of their bus.
  places_told(space, { causes }) {
    return causes.flatMap(({ text, places }) => places.filter(one => aperture_of(one.space, one.first, this.board.apertures) === space)
      .map(one => ({ ...one, text, depth: one.path.split('/').length - 1 })));
  }

  // The aperture, and what is used of it, or all of it if nothing is in it.
  extent_of(spans, aperture) {
    const inside = aperture ? spans.filter(span => is_within(span, aperture)) : spans;
    if (inside.length === 0) return [aperture, aperture];
    const used = inside.reduce(([first, last], span) => [least(first, span.first), most(last, span.last)], [inside[0].first, 0n]);
    return [aperture ? [least(aperture[0], used[0]), most(aperture[1], used[1])] : used, used];
  }

  title(space, spans, range, aperture) {
    const size = range[1] - range[0] + 1n, out = [most(range[0] - size / 2n, aperture[0]), least(range[1] + size / 2n, aperture[1])];
    const acts = [['−', 'Zoom out', () => this.zoom(space, out)], ['+', 'Zoom in', () => this.zoom_in(space, spans, range)],
      ['Fit', 'Show what is used', () => this.zoom(space, null)], ['All', 'Show the whole aperture', () => this.zoom(space, aperture)]];
    const buttons = acts.map(([name, words, act]) => Object.assign(make_button(name, act, '', `${words}, ${NAMES[space]}`), { title: words }));
    const told = `${hex(range[0])} to ${hex(range[1])}, ${size_in_words(size)} of the aperture's ${size_in_words(aperture[1] - aperture[0] + 1n)}`;
    return make('div', 'title', make('span', '', NAMES[space]), make('span', 'range', told), make('span', 'buttons', ...buttons));
  }

  // How a bar maps addresses to places: its range, between two gutters where firmware drives the board.
  scale_of_bar(range) {
    const gutter = this.board.is_driven ? gutter_of(this.width) : 0, inner = this.width - 2 * gutter;
    const x_of = address => gutter + place_of(address, range, inner);
    return { range, gutter, inner, x_of, sides_of: span => [x_of(most(span.first, range[0])), x_of(least(span.last, range[1]) + 1n)] };
  }

  bar(space, spans, range, findings) {
    const scale = this.scale_of_bar(range), rows = this.board.rows[space === 'io' ? 'io' : 'mem'], height = rows * ROW + 4;
    const bar = svg('svg', { width: this.width, height: height + TICKS, class: 'bars', tabindex: 0, role: 'group' });
    bar.append(svg('rect', { x: scale.gutter, y: 0, width: scale.inner, height, class: 'well' }));
    if (scale.gutter > 0) bar.append(...this.beside(spans, scale, height, findings.changes));
    const seen = spans.filter(span => is_within(span, range)).sort((a, b) => a.depth - b.depth || !b.region - !a.region);
    for (const span of [...seen.filter(one => one.open), ...seen.filter(one => !one.open)]) bar.append(...this.drawn(span, scale, rows, findings));
    bar.append(...this.edges(space, scale, rows, findings), ...ticks(this.ticks_of(spans, scale), this.width, height, 2, 14));
    const at = (those, mark) => those.filter(({ address }) => range[0] <= address && address <= range[1])
      .map(one => mark(scale.x_of(one.address), this.width, height, one.text));
    const { problems, lacks, asked } = findings;
    bar.append(...at(lacks, lack_at), ...at(problems, bang_at), ...at(asked.address === null ? [] : [{ ...asked, text: hex(asked.address) }], question_mark_at));
    return bar;
  }

  // A region or a window, in dashes if Command disables it.
  drawn(span, { sides_of }, rows, { problems, lacks, changes }) {
    const { owners, marks } = this.board, [from, to] = sides_of(span), y = span.depth * ROW + 2, one = called(span.of), tall = ROW * (rows - span.depth);
    const state = (naming(span, problems).length > 0 ? ' wrong' : naming(span, lacks).length > 0 ? ' lacks' : '') + (change_of(span, changes) ? ' changed' : '');
    const names = span.region ? [`${one} ${span.name}`, one, span.name] : [`${span.name} of ${one}`, `of ${one}`];
    if (!span.open) return [ghost_box(from, to - from, y, span.region ? ROW - 1 : tall, names, ROW, state)];
    if (span.region) return [region_box(from, to - from, y, ROW - 1, mark_of(owners.get(span.of.path), marks), names.slice(0, 2), state, marks.size > 0)];
    return [svg('rect', { x: from + 0.5, width: Math.max(to - from - 1, 2), y, height: tall, class: `window${state}` }), ...name_in(names, from, to - from, y + ROW / 2 + 4, 'of')];
  }

  // Edges around what was elsewhere before the last line, and around what a cause names.
  edges(space, { range, sides_of }, rows, { asked, changes }) {
    const edge = box => one => {
      const [from, to] = sides_of(one);
      return box(from, to - from, one.depth * ROW + 2, one.register === null ? ROW * (rows - one.depth) : ROW - 1, one.text);
    };
    const seen = those => those.filter(one => is_within(one, range));
    return [...seen(this.places_before(space, changes)).map(edge(before_box)), ...seen(this.places_told(space, asked)).map(edge(cause_box))];
  }

  // What is below the range that is shown, and what is above it: in each gutter a box for each depth.
  beside(spans, { range, gutter, inner }, height, changes) {
    const sides = [[0, 'below', spans.filter(span => span.last < range[0])], [gutter + inner + 2, 'above', spans.filter(span => span.first > range[1])]];
    return sides.flatMap(([x, side, those]) => [svg('rect', { x, y: 0, width: gutter - 2, height, class: 'gutter' }),
      ...[...new Set(those.map(span => span.depth))].map(depth => {
        const here = those.filter(span => span.depth === depth), names = here.slice(0, NAMED_BESIDE).map(span_alone);
        const more = here.length > NAMED_BESIDE ? [`${here.length - NAMED_BESIDE} more`] : [];
        const label = here.length > 1 ? [`${here.length} ${side}`, `${here.length}`] : [`${called(here[0].of)} ${here[0].name}`, here[0].name, here[0].name.split(' ')[0]];
        const state = (here.some(span => change_of(span, changes)) ? ' changed' : '') + (here.some(span => span.open) ? ' open' : '');
        return gutter_box(x + 2, gutter - 6, depth * ROW + 2, ROW - 1, label, [...names, ...more].join('\n'), state);
      })]);
  }

  // The ends of what is shown first, then those of windows, then where regions begin.
  ticks_of(spans, { range, x_of, gutter }) {
    const at = (address, past = 0n) => ({ x: x_of(address + past), text: hex(address) });
    const inside = address => range[0] < address && address < range[1];
    const windows = spans.filter(span => !span.region).flatMap(span => [[span.first, 0n], [span.last, 1n]]);
    const regions = spans.filter(span => span.region).map(span => [span.first, 0n]);
    const below = spans.filter(span => span.last < range[0]), above = spans.filter(span => span.first > range[1]);
    const beside = gutter === 0 ? [] : [...below.slice(0, 1).map(span => ({ x: gutter / 2, text: hex(span.first) })),
      ...above.slice(0, 1).map(span => ({ x: this.width - gutter / 2, text: hex(span.first) }))];
    return [at(range[0]), at(range[1], 1n), ...windows.concat(regions).filter(([address]) => inside(address)).map(one => at(...one)), ...beside];
  }

  // Where in a bar a pointer is: the address, the row, and the spans there, which in a gutter are those on its side.
  pointed(event, bar, spans, { range, gutter, inner }) {
    const box = bar.getBoundingClientRect(), x = (event.clientX - box.left) / box.width * this.width;
    const share = Math.min(Math.max((x - gutter) / inner, 0), 0.999999), address = address_at(share, range), row = Math.floor((event.clientY - box.top - 2) / ROW);
    const is_beside = x < gutter || x > gutter + inner, beside = spans.filter(span => (x < gutter ? span.last < range[0] : span.first > range[1]));
    return { x, address, row, is_beside: is_beside && beside.length > 0, here: is_beside ? beside : spans.filter(span => holds_address(address, span)) };
  }

  follow_pointer(bar, told, space, spans, range, findings) {
    const cursor = svg('line', { class: 'cursor', y1: 0, y2: bar.getAttribute('height') - TICKS, visibility: 'hidden' }), scale = this.scale_of_bar(range);
    bar.append(cursor);
    bar.addEventListener('pointermove', event => {
      const { x, address, is_beside, here } = this.pointed(event, bar, spans, scale);
      for (const name of ['x1', 'x2']) cursor.setAttribute(name, x);
      cursor.setAttribute('visibility', 'visible');
      told.textContent = is_beside ? here.slice(0, NAMED_BESIDE).map(span => span_in_words(span, this.board, findings)).join('; ')
        : `${hex(address)}: ${at_address(address, spans, this.board)}${findings_in_words(findings, here)}`;
      this.light(here.find(span => span.region)?.of.path ?? null);
    });
    bar.addEventListener('pointerleave', () => { cursor.setAttribute('visibility', 'hidden'); told.textContent = ''; this.light(null); });
    bar.addEventListener('click', event => {
      const { address, row, is_beside, here } = this.pointed(event, bar, spans, scale), those = here.slice().sort((a, b) => b.depth - a.depth);
      const one = those.find(span => span.depth <= row) ?? those[0];
      if (one) this.at.set(space, spans.indexOf(one));
      if (this.question.can_ask()) this.ask(space, is_beside ? one.first : address);
      else if (one) this.zoom(space, this.around(one));
    });
  }

  // A window as it is; a region with as much beside it.
  around({ first, last, region }) {
    const beside = region ? region.size / 2n : 0n;
    return [most(first - beside, 0n), last + beside];
  }

  follow_keys(bar, told, space, spans, range, findings) {
    const show = nth => {
      this.at.set(space, nth);
      told.textContent = span_in_words(spans[nth], this.board, findings);
      this.light(spans[nth].of.path);
    };
    const at = () => this.at.get(space) ?? -1;
    const acts = {
      ArrowRight: () => show(Math.min(at() + 1, spans.length - 1)), ArrowLeft: () => show(Math.max(at() - 1, 0)),
      Enter: () => {
        if (!spans[at()]) return;
        if (this.question.can_ask()) this.ask(space, spans[at()].first);
        else this.zoom_in(space, spans, range);
      },
      '+': () => this.zoom_in(space, spans, range),
      Escape: () => this.zoom(space, null),
    };
    bar.addEventListener('keydown', event => {
      if (acts[event.key] === undefined) return;
      event.preventDefault();
      acts[event.key]();
    });
    bar.addEventListener('focus', () => { if (spans[at()]) show(at()); else told.textContent = `The ${keys_in_words(this.question.can_ask())}`; });
    bar.addEventListener('blur', () => { this.light(null); told.textContent = ''; });
  }
}
