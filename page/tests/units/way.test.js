// The route of an access down the tree.

import assert from 'node:assert/strict';
import test from 'node:test';
import { way_of } from '../../js/way.js';

const bridge = (path, place, secondary) => ({ path, place, kind: 'bridge', buses: ['00', secondary, secondary], windows: [], regions: [] });

test('of two bridges that claim a bus number the route names the one that gets the cycle', () => {
  const functions = [bridge('2.0', '00:02.0', '01'), bridge('3.0', '00:03.0', '01'), { path: '2.0/0.0', place: '01:00.0', kind: 'endpoint', windows: [], regions: [] }];
  const [first] = way_of({ space: 'cfg', place: '01:00.0', words: '' }, functions).stops;
  assert.deepEqual(first.met.map(({ takes, text }) => [takes, text]),
    [[true, 'forwards it: Secondary 01, Subordinate 01'], [false, 'claims it too: Secondary 01, Subordinate 01; but 00:02.0 comes first, and gets it']]);
});
