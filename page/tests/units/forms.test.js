// The forms of lines, and why a line is refused.

import assert from 'node:assert/strict';
import test from 'node:test';
import { forms_of, is_read, number_of, shape_of, why_bad, words_in } from '../../js/forms.js';

test('numbers are decimal or begin with 0x, below 2^64', () => {
  for (const [word, value] of [['16', 16n], ['0x10', 16n], ['0X1f', 31n], ['018', 18n], ['10h', null], ['', null], ['-1', null], ['0x', null], ['0x10000000000000000', null]]) {
    assert.equal(number_of(word), value, word);
  }
});

test('guests, their host and firmware have their verbs', () => {
  assert.deepEqual(Object.keys(forms_of('a', ['a'], 'guests')), ['cr', 'cw', 'ir', 'iw', 'mr', 'mw', 'raise']);
  assert.deepEqual(Object.keys(forms_of('host', ['a'], 'guests')), ['cr', 'ir', 'mr', 'move']);
  assert.equal(forms_of('b', ['a'], 'guests'), null);
  assert.equal(forms_of('a', ['a'], 'firmware'), null);
  assert.equal(shape_of(['host', 'why'], forms_of('host', [], 'firmware', 'io').why), 'host why SPACE PORT');
});

test('only accesses that read are reads', () => {
  assert.deepEqual(['host cr 00:00.0 0 4', 'a ir 0 1', 'a cw 0 0 1 1', 'host audit', ''].map(is_read), [true, true, false, false, false]);
});

test('the wrong word is the one that the library names', () => {
  const whose = { as: 'guests', guests: ['a'], functions: [], explain: () => ({ why: 'invalid', at: 3 }) }, bad = why_bad('a cr 0 20h 4', whose);
  assert.deepEqual([bad.word, bad.name, bad.is_number], [words_in('a cr 0 20h 4')[3], 'the offset', true]);
  assert.equal(why_bad('a cr 0 0 4', { ...whose, explain: () => ({ why: '', at: 0 }) }), null);
});
