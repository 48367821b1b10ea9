// The addresses that one may type: where regions begin, with the names by which they are found.

import { size_in_words } from './report.js';
import { called } from './names.js';

// Of functions with regions as they stand on the board, or of what a guest has open: [{ first, space, told, names }].
export function places_on(those) {
  return those.flatMap(one => {
    if (one.owner) return [offered_place(one.first, one.region, one.of, `slot ${one.owner.slot} ${one.region.name}`)];
    return one.regions.map(region => offered_place(region.first, region, one, `${called(one)} ${region.name}`));
  });
}

const offered_place = (first, { kind, name, size }, { path }, told) => ({ first, space: kind === 'io' ? 'io' : 'mem',
  told: `${told}, ${size_in_words(size)}`, names: [`${path}.${name}`] });
