# What tests in bash share: a room of their own, and what holds and what fails there, counted. It is sourced at the top of the
# repository; `counted` comes last.
top=$PWD
room=$(mktemp -d)
trap 'rm -rf "$room"' EXIT
passed=0
failed=0
skipped=()

# holds NAME COMMAND..: the command ends with 0
holds() {
  local name=$1; shift
  if "$@" > "$room/told" 2>&1; then
    passed=$((passed + 1))
  else
    failed=$((failed + 1))
    echo "FAILED: $name"
    cat "$room"/{told,out} 2> /dev/null | head -c 3000
  fi
}

# run COMMAND..: what it writes is in the file out of the folder, and its status is kept; then what of that can be asked
run() { "$@" > out 2>&1; status=$?; }
has() { grep -qxE "$1" out; }
ends() { [ "$(tail -n 1 out)" = "$1" ] && [ "$status" = "$2" ]; }

# same WANTED COMMAND..: what the command writes is the file, or the text, WANTED
same() {
  local wanted=$1; shift
  if [ -e "$wanted" ]; then diff "$wanted" <("$@" 2>&1); else diff <(echo "$wanted") <("$@" 2>&1); fi
}

# the calls of the library's header, those that they stand over, and those of earlier headers
declared() {
  cat "$top"/library/{pciguest.h,raw.h,machines.c,compat.c} | grep -v '^static' | grep -o '^[A-Za-z][A-Za-z0-9_ *]*pciguest_[a-z_]*(' |
    sed 's/.*[ *]//; s/($//' | sort -u
}

# skips WHAT WHY [PACKAGE]: what is not tried here, why, and the package of Debian with which it would be
skips() { skipped+=("$1 ($2${3:+: apt-get install $3})"); }

# tells what was skipped, and how many held and failed, which is the last line; and whether all held
counted() {
  [ ${#skipped[@]} = 0 ] || printf 'skipped: %s\n' "${skipped[@]}"
  echo "$passed passed, $failed failed"
  [ "$failed" = 0 ]
}
