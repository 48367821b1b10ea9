// The conditions of tasks: which lines meet one, which don't, and what is wrong with one.

import assert from 'node:assert/strict';
import test from 'node:test';
import { Goals, wrong_in_goal } from '../../js/goals.js';

const FUNCTIONS = [{ path: '2.0', place: '00:02.0' }, { path: '2.0/0.0', place: '05:00.0' }, { path: '3.0/0.0', place: '01:00.0', lost: 'not found' }];
const WHOSE = { as: 'guests', guests: ['web'], functions: FUNCTIONS, explain: () => ({ why: '', at: 0 }) };
const NO_LINES = { answer: () => new Uint8Array() };

// Whether a goal of one condition is met after some lines with their replies.
function is_met(goal, lines, held = NO_LINES) {
  const goals = new Goals(goal, 'guests'), page = { lacks: () => [], functions: FUNCTIONS };
  for (const [line, reply] of lines) goals.hear(line, reply, held, page);
  return goals.look(held, page.lacks).at(-1);
}

const IDENTITY = 'you: host cr 01:00.0 0 4 -> host: 0x100e8086';

test('a place is read in any width and spelling', () => {
  for (const lines of [[['host cr 01:00.0 0 4', 'host: 0x100e8086']], [[' host  cr 01:00.0 0x0 0x4', 'host: 0x100e8086']],
    [['host cr 01:00.0 2 2', 'host: 0x100e'], ['host cr 01:00.0 0 2', 'host: 0x8086']],
    [['host cr 01:00.0 0 2', 'host: 0x8086'], ['host cr 01:00.0 2 1', 'host: 0x0e'], ['host cr 01:00.0 3 1', 'host: 0x10']]]) {
    assert.equal(is_met(IDENTITY, lines).met, true, lines[0][0]);
  }
  assert.equal(is_met('you: host cr 01:00.0 0x34 1 -> host: 0xc8', [['host cr 01:00.0 0x34 4', 'host: 0x000000c8']]).met, true);
});

test('a reply from elsewhere meets nothing', () => {
  for (const [line, reply = 'host: 0x100e8086'] of [['host cr 01:05.0 0 4'], ['host cr 01:00.0 4 4'], ['host mr 0 4'], ['web cr 0 0 4', 'web: 0x100e8086'], ['host cw 01:00.0 0 4 0x100e8086', 'host: ok'],
    ['host cr 01:00.0 0 4', 'host: 0x100e8087'], ['host cr 01:00.0 0 4', 'host: refused 404 x'], ['host why cfg 01:00.0'], ['']]) {
    assert.equal(is_met(IDENTITY, [[line, reply]]).met, false, line);
  }
});

test('what is read in part is told, and another value counts for nothing', () => {
  assert.match(is_met(IDENTITY, [['host cr 01:00.0 0 2', 'host: 0x8086']]).words, / \(2 of 4 bytes so far\)$/);
  assert.doesNotMatch(is_met(IDENTITY, [['host cr 01:00.0 0 4', 'host: 0x000e8086']]).words, /so far/);
});

test('a dot is any digit, and a path is the function wherever it is', () => {
  assert.equal(is_met('you: host cr 00:02.0 0x18 4 -> host: 0x..010100', [['host cr 00:02.0 0x18 2', 'host: 0x0100'], ['host cr 00:02.0 26 1', 'host: 0x01']]).met, true);
  assert.equal(is_met('you: host cr 2.0/0.0 0 2 -> host: 0x8086', [['host cr 05:00.0 0 2', 'host: 0x8086']]).met, true);
  assert.equal(is_met('you: host cr 2.0/0.0 0 2 -> host: 0x8086', [['host cr 01:00.0 0 2', 'host: 0x8086']]).met, false);
  assert.equal(is_met('you: host cr 3.0/0.0 0 2 -> host: 0x8086', [['host cr 01:00.0 0 2', 'host: 0x8086']]).met, false);
});

test('a write is met by what is written, once it succeeds', () => {
  const goal = 'you: host cw 01:00.0 0x10 4 0xffffffff -> host: ok';
  assert.equal(is_met(goal, [['host cw 01:00.0 0x10 4 4294967295', 'host: ok']]).met, true);
  assert.equal(is_met(goal, [['host cw 01:00.0 0x10 4 0xffffffff', 'host: refused 404 x']]).met, false);
  assert.equal(is_met(goal, [['host cr 01:00.0 0x10 4', 'host: 0xffffffff']]).met, false);
});

test('what the reader did counts while what stands above it holds', () => {
  const goal = `host cr 00:02.0 0 4 -> host: 0x00011b36\n${IDENTITY}`, answering = text => ({ answer: () => new TextEncoder().encode(text) });
  const lines = [['host cr 01:00.0 0 4', 'host: 0x100e8086']];
  assert.equal(is_met(goal, lines, answering('host: 0xffffffff')).met, false);
  assert.equal(is_met(goal, lines, answering('host: 0x00011b36')).met, true);
});

test('a condition that nothing meets is told', () => {
  for (const [goal, why] of [['host cr 00:02.0 0 2 -> host: 0x00011b36', /^.*: no read of 2 bytes returns this/], ['host cr 00:02.0 0 4 -> web: 0x00011b36', /no read of 4 bytes/],
    ['host cr 00:02.0 0 4 -> host: 0x00011B36', /small letters/], ['host cr 00:02.0 1 2 -> host: 0x0001', /isn't a multiple of the width/],
    ['web cw 0 4 2 2 -> web: ok', /has to be a read/], ['you: web cw 0 4 2 2 -> web: 0x0002', /a write returns web: ok/], ['-> 0x0001', /no line returns this/],
    ['you: host cr 9.0 0 2 -> host: 0x0001', /no function of the board has this path/], ['audit: ok', /only firmware/]]) {
    assert.match(wrong_in_goal(goal, WHOSE)[0] ?? '', why, goal);
  }
  for (const goal of [IDENTITY, 'host cr 00:02.0 0 2 -> host: 0x1b36', '-> host: ok', 'you: host cr 3.0/0.0 0 2 -> host: 0x....', 'you: web cw 0 4 2 2 -> web: ok']) {
    assert.deepEqual(wrong_in_goal(goal, WHOSE), [], goal);
  }
});
