// The report of a board, as functions, windows and slots.

// JSON that the module writes, as values: its numbers may have 64 bits, and stay digits until they are asked for.
export const read_json = text => JSON.parse(text.replace(/":(\d+)/g, '":"$1"'));

const four_digits = value => Number(value).toString(16).padStart(4, '0');

// A number of a function, as lines have it.
export const number_at = ({ bus, device, function: nth }) => `${two_digits(Number(bus))}:${two_digits(Number(device))}.${nth}`;

// A function has its bus number and path, its kind, and its regions or windows.
function reported_function({ path, type, vendor, device_id, regions = [], windows, buses, interrupt, ...place }) {
  const name = number_at(place), bus_named = bus => two_digits(Number(bus));
  return { place: name, path, kind: type, identity: `${four_digits(vendor)}:${four_digits(device_id)}`, bus: name.slice(0, 2), depth: path.split('/').length - 1,
    regions: regions.map(({ bar, kind, base, size }) => ({ name: `bar${bar}`, kind, first: BigInt(base), size: BigInt(size) })),
    windows: Object.entries(windows ?? {}).flatMap(([space, window]) => (window === null ? [] : [{ space, first: BigInt(window.first), last: BigInt(window.last) }])),
    buses: buses ? [buses.primary, buses.secondary, buses.subordinate].map(bus_named) : null,
    interrupt: interrupt ? `${interrupt.pin} at ${interrupt.root_device} ${interrupt.root_pin}` : '' };
}

// { functions: [..], slots: [..] }
export const report_in = ({ functions, guests }) => ({ functions: functions.map(reported_function),
  slots: guests.flatMap(({ name, slots }) => slots.map(({ slot, path }) => ({ guest: name, slot: Number(slot), path }))) });

// How far an address is from an aperture.
const away = ([first, last], at) => (at < first ? first - at : at > last ? at - last : 0n);

// The aperture in which a region or window is, or to which it is nearest: prefetchable memory may be in either, so for memory the address decides.
export function aperture_of(kind, first, { mem, pref }) {
  if (kind === 'io') return 'io';
  if (mem === undefined || pref === undefined) return pref !== undefined && away(pref, first) === 0n ? 'pref' : 'mem';
  return away(pref, first) < away(mem, first) ? 'pref' : 'mem';
}

// The windows and regions of a function, with whether its Command enables them: set-up enables all.
export const windows_of = one => one.all_windows ?? one.windows.map(window => ({ ...window, open: true }));
export const regions_of = one => one.all_regions ?? one.regions.map(region => ({ ...region, open: true }));

// The apertures of a board file that was taken, as [first, last], by their keys' names. Only the host's keys
// have these names and two numbers.
export function apertures_in(file) {
  const keys = /\b(io|mem|pref)\s*=\s*\[\s*(\w+)\s*,\s*(\w+)\s*,?\s*\]/g, found = [...file.replace(/#.*$/gm, '').matchAll(keys)];
  return Object.fromEntries(found.map(([, name, ...ends]) => [name, ends.map(word => BigInt(word.replaceAll('_', '')))]));
}

export const parent_of = path => (path.includes('/') ? path.slice(0, path.lastIndexOf('/')) : '');

export const hex = value => '0x' + value.toString(16);

export const two_digits = value => value.toString(16).padStart(2, '0');

export const count_in_words = (count, name) => `${count} ${name}${count === 1 ? '' : 's'}`;

// How many endpoints, bridges and guests a board has; no guests where they are null.
export function counts_in_words(functions, guests) {
  const bridges = functions.filter(one => one.kind === 'bridge').length, counts = [[functions.length - bridges, 'endpoint'], [bridges, 'bridge']];
  return [...counts, ...(guests === null ? [] : [[guests, 'guest']])].map(one => count_in_words(...one)).join(', ');
}

// To one place after the point; sizes of regions and of apertures are whole.
export function size_in_words(size) {
  let number = Number(size), unit = 0;
  for (; number >= 1024 && unit < 4; unit += 1) number /= 1024;
  return `${Math.round(number * 10) / 10} ${['bytes', 'KB', 'MB', 'GB', 'TB'][unit]}`;
}
