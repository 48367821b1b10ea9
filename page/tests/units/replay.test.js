// A board as it was after some of its lines: a copy in which they run again.

import assert from 'node:assert/strict';
import test from 'node:test';
import { move_in, path_in, Replay } from '../../js/replay.js';

test('a move is taken from its line and its reply', () => {
  assert.deepEqual(move_in('host move a 0 b 2', 'host: ok'), [{ guest: 'a', slot: 0 }, { guest: 'b', slot: 2 }]);
  assert.equal(move_in('host move a 0 b 2', 'host: refused 410 x'), null);
  assert.equal(move_in('a cr 0 0 4', 'a: 0x00000000'), null);
});

test('who has a slot is found by it', () => {
  const owners = new Map([['1.0', { guest: 'a', slot: 0 }], ['2.0', { guest: 'b', slot: 0 }]]);
  assert.equal(path_in(owners, { guest: 'b', slot: 0 }), '2.0');
  assert.equal(path_in(owners, { guest: 'c', slot: 0 }), undefined);
});

// A board of guests that answers each line with the number of lines so far.
function board() {
  const opened = [];
  const open = () => {
    const one = { told: null, found: null, ran: [], closed: false, seats: () => [], region: () => null, guests: () => [], close: () => { one.closed = true; },
      answer: line => { one.ran.push(new TextDecoder().decode(line)); return new TextEncoder().encode(`host: ${one.ran.length}\n`); } };
    opened.push(one);
    return one;
  };
  return { opened, open, seed: {}, others: [], functions: [], owners: new Map(), decodes: null, state: null, prepared: 0, seen: new Map() };
}

test('lines run again up to a moment, and on from it; going back opens another copy', () => {
  const one = board(), replay = new Replay(one), lines = ['host cr 00:00.0 0 4', 'host cr 00:00.0 4 4', 'host cr 00:00.0 8 4'];
  assert.equal(replay.go(lines, 2).line, lines[1]);
  assert.deepEqual(one.opened[0].ran, lines.slice(0, 2));
  assert.equal(replay.go(lines, 3).line, lines[2]);
  assert.equal(one.opened.length, 1);
  assert.equal(replay.go(lines, 0).line, null);
  assert.deepEqual([one.opened.length, one.opened[0].closed, one.opened[1].ran], [2, true, []]);
});
