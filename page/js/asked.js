// What the page asks for itself, beside the reader's lines.

import { hex } from './report.js';

export const asked_of = (held, line) => new TextDecoder().decode(held.answer(new TextEncoder().encode(line))).trimEnd();

// Firmware's cycles by number leave 0 in CONFIG_ADDRESS, so what stood there is written back after they read.
export function keeping_latch(driven, read) {
  const latch = driven.number('host ir 0xcf8 4'), found = read();
  if (latch !== 0n) asked_of(driven, `host iw 0xcf8 4 ${hex(latch)}`);
  return found;
}
