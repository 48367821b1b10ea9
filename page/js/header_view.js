// The header of a function as a picture: a row for 4 bytes, the highest byte on the left, as replies have them.

import { hex, two_digits } from './report.js';
import { make } from './marks.js';
import { registers_of } from './register_names.js';

const HEADER_ROWS = 16, BYTES_IN_ROW = 4;
const HEADERS_OF = [['endpoint', 'An endpoint, such as the network card: header type 0. No lesson uses what has no name'], ['bridge', 'A bridge: header type 1']];
const OF_CAPABILITIES = { offset: 0x34, width: 1, title: 'Capabilities Pointer' };

// The registers of a row, the last ones first, with what isn't named between them as one cell.
function cells_of(registers, first) {
  const cells = [];
  for (let at = first + BYTES_IN_ROW; at > first;) {
    const one = registers.find(({ offset, width }) => offset < at && at <= offset + width), below = registers.filter(({ offset, width }) => offset + width < at && offset + width > first);
    const from = one ? Math.max(one.offset, first) : Math.max(first, ...below.map(({ offset, width }) => offset + width));
    cells.push(Object.assign(make('td', one ? '' : 'unit', one?.title ?? ''), { colSpan: at - from, title: one ? `${one.title}: offset ${hex(one.offset)}, ${one.width} bytes` : '' }));
    at = from;
  }
  return cells;
}

export const pictures_of_headers = () => HEADERS_OF.map(([kind, words]) => make('table', 'header_of', make('caption', '', words),
  ...Array.from({ length: HEADER_ROWS }, (_, nth) => make('tr', '', make('th', '', `0x${two_digits(BYTES_IN_ROW * nth)}`), ...cells_of([...registers_of(kind), OF_CAPABILITIES], BYTES_IN_ROW * nth)))));
