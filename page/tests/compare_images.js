// Compares the images of the module's machines with those of the library for C, and what it answers to them.

import { run } from '../js/engine.js';
import { joined, same } from './compare_bytes.js';

// Whether a machine that is saved after each piece of a script, and loaded into another one there, goes on as one that runs through; and
// whether images are loaded and refused alike: one that is loaded is saved again as it is, and one that is refused changes nothing.
export function images_hold(engine, { board, firmware, before, pieces, loads }) {
  const begun = () => {
    const { made } = firmware ? engine.open_at_reset(board) : engine.open(board);
    run(made, before);
    return made;
  };
  let image = null;
  const goes_on = pieces.every(piece => {
    const made = begun(), is_loaded = image === null || made.load(image) === 0, replies = joined(run(made, piece.script));
    image = made.save();
    made.close();
    return is_loaded && same(replies, piece.replies) && same(image, piece.image);
  });
  const made = begun();
  let now = made.save();
  const answers = loads.every(({ image: other, number }) => {
    const told = made.load(other);
    if (told === 0) now = other;
    return told === number && same(made.save(), now);
  });
  made.close();
  return goes_on && answers;
}
