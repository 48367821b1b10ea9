// The state of a board that its guests have: the image of its machine, with the letters that stand for it in links and files.

import { packed, unpacked } from './packing.js';

export class State {
  // Of letters that are cut or changed the image may be null.
  constructor(text, image) { Object.assign(this, { text, image }); }

  static async of(image) { return new State(await packed(image), image); }

  static async read(text) { return new State(text, await unpacked(text)); }

  toJSON() { return this.text; }
}

// What stands before the reader's lines: lines that ran, and then a state that was loaded, or null.
export const FRESH = { lines: '', state: null };

// Why a state wasn't loaded, by the number of the call that refused it, or of what was missing for a call.
export const UNREADABLE = -1, NO_BOARD = -2;
const REASONS = {
  [UNREADABLE]: 'is cut, or was changed on its way',
  [NO_BOARD]: 'needs a board, and the file of this one is refused',
  901: 'is of guests, and no line that came with it hands the board over to them',
  905: 'is no image of a machine: it is cut, or was changed on its way (905)',
  906: 'seats a function where it cannot be given, or is of other functions (906)',
  907: 'is of another board, of other guests, or of a board that firmware set up otherwise (907)',
  908: 'is of another version of the format (908)',
};
export const why_not_loaded = number => `The state that came with the board ${REASONS[number]}. The board is shown without it.`;
