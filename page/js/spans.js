// What is drawn in the bars of the board's addresses: regions and windows as spans, and what is said about them.

import { aperture_of, hex, regions_of, size_in_words, windows_of } from './report.js';
import { owner_in_words } from './marks.js';
import { called, with_numbers } from './names.js';

const last_in = region => region.first + region.size - 1n;

function spans_of(one) {
  const windows = windows_of(one).filter(window => window.first <= window.last)
    .map(window => ({ space: window.space, first: window.first, last: window.last, name: `${window.space} window`, open: window.open }));
  const regions = regions_of(one).map(region => ({ space: region.kind, first: region.first, last: last_in(region), name: region.name, region, open: region.open }));
  return [...windows, ...regions].map(span => ({ ...span, of: one, depth: one.depth }));
}

// All windows and regions by the aperture that they belong to, each aperture's in the order of addresses, with the depth of their bus. What
// Command disables is `open: false`, at the place that its registers name.
export function spans_by_aperture(functions, apertures, names) {
  const spans = functions.flatMap(spans_of).sort((a, b) => (a.first === b.first ? a.depth - b.depth : a.first < b.first ? -1 : 1));
  const found = Map.groupBy(spans, span => aperture_of(span.space, span.first, apertures));
  return new Map(names.map(name => [name, found.get(name) ?? []]));
}

export const least = (one, other) => (one < other ? one : other);
export const most = (one, other) => (one < other ? other : one);
export const holds_address = (address, { first, last }) => first <= address && address <= last;

// Whose a region is, on a board that has guests.
const whose_region = (path, { owners, marks }) => (marks.size === 0 ? '' : `, ${owner_in_words(owners.get(path))}`);

// What is at an address: the region that has it, else the innermost window. What is enabled comes first.
export function at_address(address, spans, board) {
  const those = spans.filter(span => holds_address(address, span)), enabled = those.filter(span => span.open);
  const region = enabled.find(span => span.region) ?? those.find(span => span.region);
  if (region) {
    return `${called(region.of)} ${region.name} + ${hex(address - region.first)}${disabled_in_words(region)}${whose_region(region.of.path, board)}`;
  }
  const window = enabled.sort((a, b) => b.depth - a.depth)[0] ?? those[0];
  return window ? `nothing, in the ${window.name} of ${called(window.of)}${disabled_in_words(window)}` : 'nothing';
}

const disabled_in_words = span => (span.open ? '' : ', disabled by Command');

// The problems, or what is left to do, that name a region or, where they name no register, a window of its bridge at their address.
export const naming = ({ of, region, first, last }, findings) => findings.filter(one => one.of.some(({ path, register }) => path === of.path
  && (region ? register === region.name : register === null && first <= one.address && one.address <= last)));

// The causes that name a region or, where they name no register, a bridge.
const causes_naming = ({ of, region }, causes) => causes.filter(one => one.of.some(({ path, register }) => path === of.path && (region ? region.name : null) === register));

// What the last line changed of a region or a window.
export const change_of = ({ of, name }, changes) => changes.find(one => one.path === of.path && one.name === name);

export const findings_in_words = ({ problems, lacks, asked, changes, functions }, spans) => {
  const told = (those, name, sign) => those.filter(one => spans.some(span => name(span, [one]).length > 0)).map(one => `; ${sign} ${with_numbers(one.text, functions)}`);
  return [...spans.map(span => change_of(span, changes)).filter(Boolean).map(one => `; before: ${one.before}`),
    ...told(problems, naming, '!'), ...told(lacks, naming, 'left to do:'), ...told(asked.causes, causes_naming, 'why:')].join('');
};

export const span_alone = span => `${called(span.of)} ${span.name} ${hex(span.first)} to ${hex(span.last)}, ${size_in_words(span.last - span.first + 1n)}${disabled_in_words(span)}`;

export const span_in_words = (span, board, findings) => span_alone(span) + (span.region ? whose_region(span.of.path, board) : '') + findings_in_words(findings, [span]);
