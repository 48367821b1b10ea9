// What a reader may have meant, and what is wrong with the numbers of a line.

import assert from 'node:assert/strict';
import test from 'node:test';
import { checked, explained, meant_by, told_of_slip } from '../../js/meant.js';

test('a number that is written as documents do is one with 0x', () => {
  assert.equal(meant_by({ word: { word: '20h' }, name: 'the offset', is_number: true }, []), '0x20');
  assert.equal(meant_by({ word: null, name: 'the offset', is_number: false }, []), null);
});

test("a function's path is its number", () => {
  const functions = [{ path: '2.0/0.0', place: '01:00.0' }, { path: '3.0', place: '00:03.0', lost: 'not found' }];
  const bad = path => ({ word: { word: path }, name: 'the function', is_number: false });
  assert.equal(meant_by(bad('2.0/0.0'), functions), '01:00.0');
  assert.equal(meant_by(bad('3.0'), functions), null);
});

test('widths, places and values are checked', () => {
  for (const [line, why] of [['host cr 00:02.0 0 4', null], ['host cr 00:02.0 0', null], ['host cr 00:02.0 2 4', "the offset, 0x2, isn't a multiple of the width, 4"],
    ['host cr 00:02.0 0 3', 'the width is 1, 2 or 4 bytes, not 3'], ['a cw 0 4 1 0x100', 'the value, 0x100, is too large for 1 byte: the line writes 0x0'],
    ['a mr 0x1001 2', "the address, 0x1001, isn't a multiple of the width, 2"]]) {
    assert.equal(checked(line, ['a'], 'guests'), why, line);
  }
});

test('bare hexadecimal digits are a number with 0x, unless they may begin a name', () => {
  const meant = word => meant_by({ word: { word }, name: 'the address', is_number: true }, []);
  assert.deepEqual(['c0000000', 'deadbeef', '1c', 'ca', 'bar0', '10'].map(meant), ['0xc0000000', '0xdeadbeef', '0x1c', null, null, null]);
});

test('an offset in decimal digits may be a slip', () => {
  assert.equal(checked('host cr 00:02.0 18 4', [], 'firmware'), "the offset, 0x12, isn't a multiple of the width, 4; 18 is decimal: did you mean 0x18?");
  assert.equal(told_of_slip('host cr 00:02.0 20 4'), '20 is decimal, so the offset is 0x14: did you mean 0x20?');
  assert.deepEqual(['host cr 00:02.0 0x20 4', 'host cr 00:02.0 4 4', 'host mr 20 4', ''].map(told_of_slip), ['', '', '', '']);
});

test('a width of 8 is blamed, and not its value', () => {
  const bad = { word: { word: '0x1122334455667788' }, name: 'the value', is_number: true, width: '8', verb: 'mw', why: 'invalid value' };
  assert.equal(explained(bad, []), 'the width is 1, 2 or 4 bytes, not 8');
  assert.equal(explained({ ...bad, width: '4' }, []), 'invalid value');
});
