// Why the page can't run here.

// A module that has nothing but a memory with 64-bit addresses.
const MEMORY64 = new Uint8Array([0, 0x61, 0x73, 0x6d, 1, 0, 0, 0, 5, 3, 1, 4, 1]);

const has_memory64 = () => typeof WebAssembly === 'object' && WebAssembly.validate(MEMORY64);

const why_unable = wrong => (has_memory64() ? `This page has stopped: ${wrong}.`
  : "This browser can't run the page: it has no WebAssembly memories with 64-bit addresses. Chrome and Edge have them from version 133 on, and Firefox from version 134 on.");

// Says so at the top, in place of everything else.
export function tell_unable(into, wrong) {
  into.textContent = why_unable(wrong);
  into.hidden = false;
  document.body.classList.add('is-unable');
}
