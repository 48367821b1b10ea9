// A board file that has a state too, or a task. Both stand in comments at its end, so to others it is a board file.

const BEGINS = '#pciguest-state', LINE = '#line ', IMAGE = '#image ', ENDS = '#end';
const TASK_ROWS = ['title', 'text', 'goal'];
const FRAME = /^#pciguest-state (guests|firmware)$/;
const LETTERS_IN_A_LINE = /.{1,100}/g;

export function file_of({ board, as, lines, state, task }) {
  const told = task ? TASK_ROWS.flatMap(name => task[name].split('\n').map(line => `#${name} ${line}`)) : [];
  const before = lines === '' ? [] : lines.split('\n').map(line => LINE + line);
  const image = (state?.text.match(LETTERS_IN_A_LINE) ?? []).map(letters => IMAGE + letters);
  return [board.replace(/\n$/, ''), `${BEGINS} ${as}`, ...told, ...before, ...image, ENDS, ''].join('\n');
}

// Why a file that has lines of a task is none, or null: it was written by hand, or cut.
export function why_no_task(file) {
  const lines = file.split(/\r?\n/), begins = lines.findLastIndex(line => FRAME.test(line)), goal = lines.findLastIndex(line => line.startsWith('#goal '));
  if (goal < 0) return null;
  if (begins < 0 || goal < begins) return `The file has a goal, but before its lines there is no line "${BEGINS} guests" or "${BEGINS} firmware", so it isn't opened as a task.`;
  return lines.indexOf(ENDS, begins) < goal ? `The file has a goal, but no line "${ENDS}" after it, so it isn't opened as a task.` : null;
}

// The board of a file and whose lines stand with it, those lines, its task or null, and the letters of its state, which are null where it has
// none. Of a file that is cut the letters are empty, as no state has.
export function parts_of(file) {
  const text = file.replaceAll('\r\n', '\n'), begins = [...text.matchAll(/^#pciguest-state (guests|firmware)$/gm)].at(-1);
  if (begins === undefined) return { board: file, as: null, lines: '', letters: null, task: null };
  const { index: at, 1: as } = begins, rest = text.slice(at).split('\n').slice(1), end = rest.indexOf(ENDS);
  const those = kind => rest.filter(line => line.startsWith(kind)).map(line => line.slice(kind.length));
  const [title, words, goal] = TASK_ROWS.map(name => those(`#${name} `).join('\n')), task = goal === '' ? null : { title, text: words, goal };
  return { board: text.slice(0, at), as, task, lines: those(LINE).join('\n'), letters: end < 0 ? '' : those(IMAGE).join('') || null };
}
