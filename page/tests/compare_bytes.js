// Bytes, as what compares the module with the program and the library has them.

export const same = (a, b) => a.length === b.length && a.every((one, nth) => one === b[nth]);

export function joined(parts) {
  const all = new Uint8Array(parts.reduce((length, part) => length + part.length, 0));
  parts.reduce((at, part) => (all.set(part, at), at + part.length), 0);
  return all;
}
