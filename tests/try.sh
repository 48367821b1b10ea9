#!/usr/bin/env bash
# Runs the tests of a crate that needs no proof: tests/try.sh CRATE. The last line is 'N passed, M failed'.
set -u -o pipefail
cd "$(dirname "$0")/../crates/$1" || exit 1
rt try --test 2>&1 | awk '
  { print }
  /^test result: / { for (i = 1; i <= NF; i++) { if ($i ~ /^passed/) passed += $(i - 1); if ($i ~ /^failed/) failed += $(i - 1) } }
  END { print passed + 0 " passed, " failed + !passed " failed"; exit failed || !passed }'
