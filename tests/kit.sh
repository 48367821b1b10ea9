#!/usr/bin/env bash
# The tests of the kit that tests firmware and hypervisors of others, as far as they need Python 3.11 alone, and cc where it is
# there: no program, no library and no package. The last line is 'N passed, M failed'.
set -u
cd "$(dirname "$0")/kit"
python3 -c 'import tomllib' 2> /dev/null ||
  { echo 'skipped: the kit (no Python 3.11: apt-get install python3)'; echo '0 passed, 0 failed'; exit 0; }
../../tools/bindings
told=$(python3 -B -m unittest discover 2>&1)
status=$?
count=$(sed -n 's/^Ran \([0-9]*\) tests.*/\1/p' <<< "$told")
[ $status = 0 ] || echo "$told"
command -v cc > /dev/null || echo 'skipped: firmware in C (no cc: apt-get install gcc)'
wrong=$(grep -cE '^(FAIL|ERROR): ' <<< "$told")
echo "$((${count:-0} - wrong)) passed, $wrong failed"
exit $status
