// The registers of configuration space by name: { name, offset, width, title }. REGISTERS has those of the prompt for Python
// (library/python/pciguest/_names.py), which page/build/assemble gives.

export const registers_of = kind => REGISTERS[kind === 'bridge' ? 'BRIDGE' : 'ENDPOINT'];

export const register_named = (kind, name) => registers_of(kind).find(one => one.name === name);

// The register that has a byte, or null.
export const register_at = (kind, at) => registers_of(kind).find(({ offset, width }) => offset <= at && at < offset + width) ?? null;
