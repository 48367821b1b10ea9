// A class code in words, by its base class and subclass: PCI Local Bus Specification, appendix D.

const BASES = ['old device', 'storage', 'network', 'display', 'multimedia', 'memory', 'bridge', 'communication', 'system', 'input',
  'docking', 'processor', 'serial bus', 'wireless', 'intelligent I/O', 'satellite', 'encryption', 'signal'];
const SUBS = { 0x0101: 'IDE', 0x0106: 'SATA', 0x0108: 'NVMe', 0x0300: 'VGA', 0x0401: 'audio', 0x0403: 'audio', 0x0700: 'serial port',
  0x0c00: 'FireWire', 0x0c03: 'USB', 0x0c05: 'SMBus' };

export function class_in_words(code) {
  const base = code >> 16;
  return SUBS[code >> 8] ?? BASES[base] ?? (base === 0xff ? 'other' : `class 0x${base.toString(16)}`);
}

// What a host reads of a function's class code.
export const class_of = (machine, place) => class_in_words(Number(machine.number(`host cr ${place} 8 4`) >> 8n));
