// The capability list of a function, walked as software walks it, and the registers of MSI and MSI-X: PCI Local Bus 3.0, sections 6.7 and 6.8.

import { count_in_words, hex } from './report.js';

// By Capability ID: PCI Local Bus 3.0, appendix H, and the PCI Code and ID Assignment Specification.
const CAPABILITIES = ['Null', 'Power Management', 'AGP', 'VPD', 'Slot Identification', 'MSI', 'CompactPCI Hot Swap', 'PCI-X', 'HyperTransport', 'Vendor-Specific',
  'Debug Port', 'CompactPCI Resource Control', 'PCI Hot-Plug', 'Subsystem ID', 'AGP 8x', 'Secure Device', 'PCI Express', 'MSI-X', 'SATA', 'Advanced Features',
  'Enhanced Allocation', 'Flattening Portal Bridge'];
const MSI = 0x05, MSI_X = 0x11;
const POINTER = { offset: 0x34, width: 1, title: 'Capabilities Pointer' };

// A register of a structure: where it begins there, its width, which of its bits are switches, and which are numbers, each with a mask and how
// far it is shifted.
const in_structure = (name, at, width, switches = [], numbers = []) => ({ name, at, width, switches, numbers });
const one_number = (name, at, width) => in_structure(name, at, width, [], [[name, (1n << BigInt(8 * width)) - 1n, 0n]]);
const table_at = (name, at) => in_structure(`${name} Offset/BIR`, at, 4, [], [[`${name} BIR`, 7n, 0n], [`${name} Offset`, 0xfffffff8n, 0n]]);
const HEADER_OF_STRUCTURE = [in_structure('Capability ID', 0, 1), in_structure('Next Capability', 1, 1)];

// Message Control says which of its registers an MSI structure has.
function registers_of_msi(control) {
  const upper = control & 0x80 ? 4 : 0;
  return [in_structure('Message Control', 2, 2, [['MSI Enable', 0]], [['Multiple Message Capable', 0x0en, 1n], ['Multiple Message Enable', 0x70n, 4n]]),
    one_number('Message Address', 4, 4), ...(upper ? [one_number('Message Upper Address', 8, 4)] : []), one_number('Message Data', 8 + upper, 2),
    ...(control & 0x100 ? [one_number('Mask Bits', 12 + upper, 4), one_number('Pending Bits', 16 + upper, 4)] : [])];
}

const DECODED = {
  [MSI]: control => ({ registers: registers_of_msi(control),
    told: `${count_in_words(1 << (control >> 1 & 7), 'vector')}, ${control & 0x80 ? 64 : 32}-bit address${control & 0x100 ? ', mask bits' : ''}` }),
  [MSI_X]: control => ({ told: count_in_words((control & 0x7ff) + 1, 'vector'),
    registers: [in_structure('Message Control', 2, 2, [['MSI-X Enable', 15], ['Function Mask', 14]], [['Table Size', 0x7ffn, 0n]]), table_at('Table', 4), table_at('PBA', 8)] }),
};

// A structure with the registers of its header and those behind it that are decoded. None reaches past the end of configuration space.
function structure_at(offset, number) {
  const id = number(offset, 1), name = CAPABILITIES[id] ?? `Capability ${hex(id)}`, { registers, told } = DECODED[id]?.(number(offset + 2, 2)) ?? { registers: [], told: '' };
  const placed = those => those.map(one => ({ ...one, offset: offset + one.at, title: `${one.name} (${name})` })).filter(one => one.offset + one.width <= 256);
  return { name, offset, told, header: placed(HEADER_OF_STRUCTURE), registers: placed(registers) };
}

// The structures in the order of the list, and the list in words. A structure begins at one of 48 offsets, and the walk ends where it would come to one
// again. `values` has the registers by their offsets, in words of 4 bytes.
export function capability_list(values) {
  const number = (offset, width) => (values.get(offset & ~3) ?? 0) >>> 8 * (offset & 3) & (1 << 8 * width) - 1, structures = [];
  if ((number(0x06, 1) & 0x10) === 0) return { structures, told: '' };
  let at = number(POINTER.offset, 1) & ~3;
  for (; at >= 0x40 && !structures.some(one => one.offset === at); at = number(at + 1, 1) & ~3) structures.push(structure_at(at, number));
  const ends = at >= 0x40 ? `back to ${hex(at)}` : at === 0 ? 'end' : `${hex(at)}, in the header`;
  return { structures, told: [`Capability list: ${hex(POINTER.offset)}`, ...structures.map(one => `[${hex(one.offset)} ${one.name}]`), ends].join(' → ') };
}

// The register of a list that has a byte, or null.
export function register_of_list({ structures, told }, at) {
  const all = told === '' ? [] : [POINTER, ...structures.flatMap(({ header, registers }) => [...header, ...registers])];
  return all.find(({ offset, width }) => offset <= at && at < offset + width) ?? null;
}
