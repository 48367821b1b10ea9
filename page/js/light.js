// Functions that are pointed at or named elsewhere are marked where they are drawn.

import { parent_of } from './report.js';

// Marks functions, and for one behind a folded bus the bridge before it.
export function light(...paths) {
  for (const one of document.querySelectorAll('.lit')) one.classList.remove('lit');
  const drawn = at => document.querySelectorAll(`[data-path="${at}"]`);
  for (let path of paths) {
    while (path && drawn(path).length === 0) path = parent_of(path);
    if (path) for (const one of drawn(path)) one.classList.add('lit');
  }
}
