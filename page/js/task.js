// A task that comes by a link, or from what was kept.

// A task, or null: { title, text, board, as, lines, goal }, all of them texts, and a state or null.
export function read_task(found) {
  const names = ['title', 'text', 'board', 'as', 'lines', 'goal'];
  if (typeof found !== 'object' || found === null || names.some(name => typeof found[name] !== 'string')) return null;
  const { as, state } = found;
  return { ...Object.fromEntries(names.map(name => [name, found[name]])), as: as === 'firmware' ? as : 'guests', state: state ?? null, hint: '' };
}
