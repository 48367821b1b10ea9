#!/usr/bin/env bash
# What bench/compare tells of two outputs of `make bench`, over made-up ones. It needs no kit. The last line is
# 'N passed, M failed'.
set -u
cd "$(dirname "$0")/.."
source tests/holds.sh
cd "$room" || exit 1

cat > old << 'BENCH'
[53 of 53] pciguest .. proved in 2 min  4 s
accesses of a board                                   ns  instructions
main: config_read                                     13            40
main: claim by Table                                   3             9
nested: claim by TreeWalk                           5421             -

calls from C                                          ns  instructions
read memory                                         31.0           100
gone                                                   4            12

an audit                                              ms            MB  problems
largest                                              3.8            17         0
BENCH
run "$top/bench/compare" old old
holds 'nothing grew' ends '12 figures: 0 grew by more than 3 %, 0 fell by as much' 0
sed -e 's/ 13            40/ 13            42/; s/  3             9/  4             9/; s/5421/5420/' \
  -e 's/31.0           100/20.0           103/; s/^gone/new /; s/ 3.8 / 4.0 /' old > new
run "$top/bench/compare" old new
holds 'what grew' ends '10 figures: 2 grew by more than 3 %, 1 fell by as much' 1
holds 'its figures' has 'accesses of a board: main: config_read: 40 to 42 instructions, 5 % more'
holds 'a figure of another unit' has 'an audit: largest: 3.8 to 4 ms, 5 % more'
holds 'a row that is gone' has 'calls from C: gone: not all of it stands in both, but in old'
holds 'a row that is new' has 'calls from C: new: not all of it stands in both, but in new'
run "$top/bench/compare" old told
holds 'a file without figures' eval '[ "$status" = 2 ] && has ".* has no figures.*"'

counted
