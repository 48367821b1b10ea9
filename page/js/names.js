// One name for each function: its number, bus, device and function, as lines take it. Its path, by which the board file and the library's texts name
// it, stands below it in the tree.

const PATH_IN_TEXT = /(?<![\w.:/-])\d+\.\d(?:\/\d+\.\d)*(?![\w./]|:\S)/g;
export const UNNUMBERED = '–';

// The number of a function, or its path if no cycle for that number reaches it.
export const called = one => (one.lost ? one.path : one.place);

// The number at which the tree shows a function. A bus without a number has none to show.
export const number_shown = ({ bus, place }) => (bus === UNNUMBERED ? `--${place.slice(2)}` : place);

// A text of the library with the number of each function in front of its path.
export function with_numbers(text, functions) {
  return text.replace(PATH_IN_TEXT, path => {
    const one = functions.find(each => each.path === path);
    return one === undefined || one.lost ? path : `${one.place} (${path})`;
  });
}
