// Bytes as letters that links and files take: compressed where the browser can do that, else behind a dot.

const PLAIN = '.';
const coded = bytes => btoa(Array.from(bytes, one => String.fromCharCode(one)).join('')).replaceAll('+', '-').replaceAll('/', '_').replaceAll('=', '');
const decoded = text => Uint8Array.from(atob(text.replaceAll('-', '+').replaceAll('_', '/')), one => one.charCodeAt(0));

async function through(bytes, stream) {
  return new Uint8Array(await new Response(new Blob([bytes]).stream().pipeThrough(stream)).arrayBuffer());
}

export async function packed(bytes) {
  return typeof CompressionStream === 'function' ? coded(await through(bytes, new CompressionStream('deflate-raw'))) : PLAIN + coded(bytes);
}

// The bytes, or null where letters are missing or are others.
export async function unpacked(text) {
  try {
    return text.startsWith(PLAIN) ? decoded(text.slice(1)) : await through(decoded(text), new DecompressionStream('deflate-raw'));
  } catch { return null; }
}
