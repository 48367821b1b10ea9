#!/usr/bin/env bash
# Runs the proved program as its user does, and compares what it writes and how it ends.
#     tests/program.sh [PROGRAM]
# PROGRAM is the one that `rt ci` or `make build` left, unless it is given. The last line is 'N passed, M failed'.
set -u
cd "$(dirname "$0")/.."
source tests/holds.sh
program=$(readlink -f "${1:-crates/pciguest/out/pciguest}")
boards=$top/boards main=$top/boards/main.toml
[ -x "$program" ] || { echo "no program at $program: make build"; echo '0 passed, 1 failed'; exit 1; }

# A board that no words below name lies where the program runs.
cp "$boards/host_alone.toml" "$room/board.toml"
cd "$room" || exit 1

# tell NAME: says whether the files of the last run are those that are wanted
tell() {
  local why=''
  cmp -s out wanted.out || why="$why; standard output differs"
  cmp -s err wanted.err || why="$why; standard error differs: $(head -c 200 err)"
  [ "$status" = "$wanted" ] || why="$why; status $status in place of $wanted"
  if [ -z "$why" ]; then
    passed=$((passed + 1))
  else
    failed=$((failed + 1))
    echo "FAILED: $1$why"
    diff wanted.out out 2>&1 | head -n 6 | cut -c 1-200 | sed 's/^/  /'
  fi
}

# without_reasons: what was told beside why lines have none of the forms
without_reasons() {
  grep -v '^script:' told
}

# ends_with NAME WORDS..: the program ends well, with the output in wanted.out
ends_with() {
  local name=$1; shift
  timeout 60 "$program" "$@" > out 2> told; status=$?
  without_reasons > err
  : > wanted.err; wanted=0
  tell "$name"
}

# fails_with NAME 'N WORDS' WORDS..: it ends with this fault, and writes nothing else but a line below it
fails_with() {
  : > wanted.out
  ends_with_fault "$@"
}

# ends_with_fault NAME 'N WORDS' WORDS..: it ends with this fault, after the output in wanted.out
ends_with_fault() {
  local name=$1 fault=$2; shift 2
  timeout 60 "$program" "$@" > out 2> told; status=$?
  without_reasons | head -n 1 > err
  echo "pciguest: fault $fault" > wanted.err; wanted=1
  tell "$name"
}

# tell_unwritten NAME: the same of a run whose output nobody takes
tell_unwritten() {
  : > out; : > wanted.out; echo 'pciguest: fault 502 write failed' > wanted.err; wanted=1
  tell "$1"
}

# full NAME WORDS..: the device that standard output goes to is full
full() {
  local name=$1; shift
  timeout 60 "$program" "$@" > /dev/full 2> err; status=$?
  tell_unwritten "$name, to a full device"
}

# comes_first LINE: the output that is wanted, after this line
comes_first() { { echo "$1"; cat wanted.out; } > wanted.more; mv wanted.more wanted.out; }

# ---- what all commands refuse alike
usage='701 usage'
for verb in list check run firmware audit ready; do
  fails_with "$verb alone" "$usage" $verb
  fails_with "$verb, no such file" '702 board file' $verb nothing.toml <<< 'host cr 00:00.0 0 4'
  [ $verb = check ] || fails_with "$verb, a faulty file" '107 size' $verb "$boards/refused/size.toml" <<< 'host cr 00:00.0 0 4'
done
for verb in run firmware audit ready; do fails_with "$verb, standard input closed" '501 read failed' $verb "$main" <&-; done
for words in 'list --json' 'check --plain' 'check --all' 'audit --json' {run,firmware,audit,ready}' --strict'; do
  fails_with "$words, no board" "$usage" $words
  fails_with "$words twice" "$usage" $words "${words#* }" "$main"
done
for words in {list,check}' --strict' {list,run,audit}' --all' {check,run,firmware}' --json'; do
  fails_with "$words" "$usage" $words "$main"
done

# ---- demo
script=$top/crates/pciguest/stdin
cp "$top/crates/pciguest/stdout" wanted.out
ends_with 'demo, its script in two pieces' demo < <(head -c 15 "$script"; sleep 0.2; tail -c +16 "$script")
: > wanted.out
ends_with 'demo, an empty script' demo < /dev/null
# more than a megabyte, so thousands of reads
yes 'a cr 0 0 4' | head -n 200000 > long
yes 'a: 0x00011234' | head -n 200000 > wanted.out
ends_with 'demo, a long script' demo < long
fails_with 'demo, a script that is a folder' '501 read failed' demo < /
full 'demo' demo < "$script"
full 'demo, a long script' demo < long

timeout 60 "$program" demo < long 2> err | head -c 0; status=${PIPESTATUS[0]}
tell_unwritten 'demo, its reader gone'

# ---- the rows of tests/rows, the boards and scripts of boards, and the sessions and audits of the examples
python3 "$top/tests/cases.py" "$program" > told; status=$?
counts='^([0-9]+) passed, ([0-9]+) failed$'
if [[ $(tail -n 1 told) =~ $counts && $status -le 1 ]]; then
  passed=$((passed + BASH_REMATCH[1])) failed=$((failed + BASH_REMATCH[2]))
  head -n -1 told
else
  failed=$((failed + 1))
  echo "FAILED: tests/cases.py ended with status $status"
fi

# section HEAD [FILE]: what boards/expected.txt, or that file, has below it
section() { awk -v head="== $1" '/^== / { inside = $0 == head; next } inside' "${2:-$boards/expected.txt}"; }

# ---- list
: > empty.toml
printf '\377' > ff.toml
fails_with 'list, an empty file' '102 key' list empty.toml
fails_with 'list, a byte FFh' '101 not TOML' list ff.toml
fails_with 'list, a folder' '702 board file' list .
fails_with 'list, an empty path' '702 board file' list ''
full 'list' list "$main"
section main.toml > wanted.out
ends_with 'list, without standard input' list "$main" <&-
fails_with 'list --json, a board that is refused' '107 size' list --json "$boards/refused/size.toml"
full 'list --json' list --json "$main"
timeout 60 "$program" list --json "$main" > wanted.out
ends_with 'list, and then --json' list "$main" --json

# ---- check
section 'check main.toml' > wanted.out
cp "$main" main.toml
ends_with 'check --plain' check --plain main.toml
ends_with 'check, and then --plain' check main.toml --plain
section 'check --all main.toml' > wanted.out
ends_with 'check --all --plain' check --all --plain main.toml
ends_with 'check --plain --all' check --plain --all main.toml
ends_with 'check, and then --all' check main.toml --all
full 'check' check "$main"
full 'check --all' check --all "$main"
full 'check, a board that is refused' check "$boards/refused/size.toml"

# ---- run: guests, a move, and what the host sees
cat > run.script <<'END'
# a guest programs its function, and another is given it
a cw 0 0x10 4 0xffffffff
a cr 0 0x10 4
host cr 00:01.0 0x10 4
a cw 0 4 4 0xffff0003
a cw 0 0x14 4 0x80000000
a mw 0x80000010 4 0x12345678
host mr 0xc0100010 4
b mr 0x80000010 4
host move a 0 b 1
a cr 0 0 2
b cr 1 0x14 4
host mr 0xc0100010 4
b cr 1 0 4
c cr 0 0 4
END
cat > run.wanted <<'END'
a: ok
a: 0xffffffe1
host: 0x00002001
a: ok
a: ok
a: ok
host: 0x12345678
b: 0xffffffff
host: ok
a: 0xffff
b: 0x00000000
host: 0x00000000
b: 0x00011234
?: refused 402 unknown guest
END
cp run.wanted wanted.out
ends_with 'run' run "$main" < run.script
ends_with 'run, its script in two pieces' run "$main" \
  < <(head -c 70 run.script; sleep 0.2; tail -c +71 run.script)
{ cat run.script; head -c 100000 /dev/zero | tr '\0' x; printf '\nhost cr 00:01.0 0 2'; } > run.long
{ cat run.wanted; echo '?: refused 403 long line'; echo 'host: 0x1234'; } > wanted.out
ends_with 'run, a line of 100000 bytes and a last line without a line feed' run "$main" < run.long
: > wanted.out
ends_with 'run, an empty script' run "$main" < /dev/null
fails_with 'run, a script that is a folder' '501 read failed' run "$main" < /
full 'run' run "$main" < run.script
fails_with 'run, a board that does not fit' '204 memory pool' run "$boards/refused/memory_pool.toml" < run.script

# ---- firmware: over a board at reset
full 'firmware' firmware "$main" < "$boards/firmware.script"
: > wanted.out
ends_with 'firmware, a board that does not fit' firmware "$boards/refused/memory_pool.toml" < /dev/null
echo '?: refused 402 unknown guest' > wanted.out
ends_with 'firmware, a line of a guest of the file' firmware "$main" < <(printf '# host cr 00:01.0 0 4\na cr 0 0 4\n \t\r')

# ---- audit: firmware's lines, answered as by firmware, and then what is wrong; what is broken on purpose stands in
# examples/audit, and tests/commands.sh runs it
{ section 'firmware.script over main.toml at reset'; echo 'audit: ok'; } > wanted.out
ends_with 'audit' audit "$main" < "$boards/firmware.script"
ends_with 'audit, its lines in two pieces' audit "$main" \
  < <(head -c 300 "$boards/firmware.script"; sleep 0.2; tail -c +301 "$boards/firmware.script")
full 'audit' audit "$main" < "$boards/firmware.script"
full 'audit, without a line' audit "$main" < /dev/null
echo 'audit: ok' > wanted.out
ends_with 'audit, no function at all' audit "$boards/host_alone.toml" < /dev/null
cat > wanted.out <<'END'
audit: 2.0/0.0: a configuration cycle to 00:00.0 reaches nothing
audit: 2.0/1.0: a configuration cycle to 00:01.0 reaches 1.0
audit: 2 problems
END
ends_with 'audit, a board at reset' audit "$main" < /dev/null
comes_first 'host: ok'
ends_with 'audit, a last line without a line feed' audit "$main" < <(printf 'host mw 0 4 1')
ends_with 'audit, a register that routes nothing' audit "$main" <<< 'host cw 00:02.0 0x18 1 7'

# ---- ready: the same lines, and then what is wrong and what is lacking; where that is anything, a fault after it
echo 'ready: ok' > wanted.out
ends_with 'ready, no function at all' ready "$boards/host_alone.toml" < /dev/null
{ sed '/^#/d; s/.*/host: ok/' "$top/examples/audit/set_up.script"; echo 'ready: ok'; } > wanted.out
ends_with 'ready' ready "$top/examples/audit/board.toml" < "$top/examples/audit/set_up.script"
full 'ready' ready "$top/examples/audit/board.toml" < "$top/examples/audit/set_up.script"
cat > wanted.out <<'END'
audit: 2.0/0.0: a configuration cycle to 00:00.0 reaches nothing
audit: 2.0/1.0: a configuration cycle to 00:01.0 reaches 1.0
ready: 1.0 bar0 at 0x0 size 0x20: I/O decode is disabled
ready: 1.0 bar1 at 0x0 size 0x1000: memory decode is disabled
ready: 2.0/0.0 bar0 at 0x0 size 0x100000: memory decode is disabled
ready: 2.0/0.0 bar1 at 0x0 size 0x8: I/O decode is disabled
ready: 2.0/1.0 bar0 at 0x0 size 0x1000000: memory decode is disabled
ready: 2 problems, 5 left to do
END
ends_with_fault 'ready, a board at reset' '208 not ready' ready "$main" < /dev/null
comes_first 'host: ok'
ends_with_fault 'ready, a last line without a line feed' '208 not ready' ready "$main" < <(printf 'host mw 0 4 1')
{ echo '?: refused 402 unknown guest'; tail -n +2 wanted.out; } > wanted.more; mv wanted.more wanted.out
ends_with_fault 'ready --strict, lacks and a refused line' '209 refused line' ready --strict "$main" <<< 'a cr 0 0 4'
full 'ready, a board at reset' ready "$main" < /dev/null
# --json: the same as a JSON object on one line
echo '{"lacks":[],"problems":[]}' > wanted.out
ends_with 'ready --json, no function at all' ready --json "$boards/host_alone.toml" < /dev/null
cat > wanted.out << 'END'
{"lacks":[{"region":{"bar":0,"base":0,"path":"1.0","size":32,"space":"io"},"type":"closed"},{"region":{"bar":1,"base":0,"path":"1.0","size":4096,"space":"mem"},"type":"closed"},{"region":{"bar":0,"base":0,"path":"2.0/0.0","size":1048576,"space":"mem"},"type":"closed"},{"region":{"bar":1,"base":0,"path":"2.0/0.0","size":8,"space":"io"},"type":"closed"},{"region":{"bar":0,"base":0,"path":"2.0/1.0","size":16777216,"space":"mem"},"type":"closed"}],"problems":[{"number":{"bus":0,"device":0,"function":0},"path":"2.0/0.0","reached":null,"type":"not found"},{"number":{"bus":0,"device":1,"function":0},"path":"2.0/1.0","reached":"1.0","type":"not found"}]}
END
ends_with_fault 'ready --json, a board at reset' '208 not ready' ready --json "$main" < /dev/null
ends_with_fault 'ready, and then both flags' '208 not ready' ready "$main" --strict --json < /dev/null
full 'ready --json, a board at reset' ready --json "$main" < /dev/null

# ---- --strict: a refused line is a fault once all lines ran, and so is a problem of the audit at their end
cp run.wanted wanted.out
ends_with_fault 'run --strict, a refused line' '209 refused line' run --strict "$main" < run.script
head -n -1 run.wanted > wanted.out
ends_with 'run --strict' run --strict "$main" < <(head -n -1 run.script)
ends_with 'run, and then --strict' run "$main" --strict < <(head -n -1 run.script)
{ echo '?: refused 403 long line'; echo 'a: 0x00011234'; } > wanted.out
ends_with_fault 'run --strict, a long line and a last one without a line feed' '209 refused line' run --strict "$main" \
  < <(head -c 100000 /dev/zero | tr '\0' x; printf '\na cr 0 0 4')
: > wanted.out
ends_with 'run --strict, an empty script' run --strict "$main" < /dev/null
full 'run --strict' run --strict "$main" < run.script
fails_with 'run --strict, a script that is a folder' '501 read failed' run --strict "$main" < /
fails_with 'run --strict, a faulty file' '107 size' run --strict "$boards/refused/size.toml" < run.script
printf 'host: 0x1234\naudit: 2.0/0.0: a configuration cycle to 00:00.0 reaches nothing\nhost: refused 207 not in order\n' > wanted.out
ends_with_fault 'firmware --strict, a handover that is refused' '209 refused line' firmware --strict "$main" \
  < <(printf 'host cr 00:01.0 0 2\nhost guests\n')
printf 'audit: 2.0/0.0: a configuration cycle to 00:00.0 reaches nothing\naudit: 2.0/1.0: a configuration cycle to 00:01.0 reaches 1.0\naudit: 2 problems\n' > wanted.out
ends_with 'firmware --strict, problems that a line tells' firmware --strict "$main" <<< 'host audit'
ends_with_fault 'audit --strict, problems' '207 not in order' audit --strict "$main" < /dev/null
comes_first '?: refused 402 unknown guest'
ends_with_fault 'audit --strict, problems and a refused line' '209 refused line' audit --strict "$main" <<< 'a cr 0 0 4'
full 'audit --strict, problems' audit --strict "$main" < /dev/null
{ section 'firmware.script over main.toml at reset'; echo 'audit: ok'; } > wanted.out
ends_with 'audit --strict' audit --strict "$main" < "$boards/firmware.script"
# --json: the same as a JSON object on one line, after what the lines write
{ section 'firmware.script over main.toml at reset'; echo '{"problems":[]}'; } > wanted.out
ends_with 'audit --json' audit --json "$main" < "$boards/firmware.script"
ends_with 'audit, and then both flags' audit "$main" --strict --json < "$boards/firmware.script"
echo '{"problems":[{"number":{"bus":0,"device":0,"function":0},"path":"2.0/0.0","reached":null,"type":"not found"},{"number":{"bus":0,"device":1,"function":0},"path":"2.0/1.0","reached":"1.0","type":"not found"}]}' > wanted.out
ends_with 'audit --json, problems' audit --json "$main" < /dev/null
ends_with_fault 'audit --json --strict, problems' '207 not in order' audit --json --strict "$main" < /dev/null
full 'audit --json, problems' audit --json "$main" < /dev/null
fails_with 'audit --json, a faulty file' '107 size' audit --json "$boards/refused/size.toml" < /dev/null

# ---- run: lines at the ends of what a line may say
longest=$(printf '%190s' '')
{
  printf 'a cw 1 4 2 2\na cw 1 0x10 4 0xffffffff\na cw 1 0x14 4 0xffffffff\n'
  printf 'a mr 0xffffffffff000000 4\na mr 0xfffffffffffffffc 4\na mr 0x10000000000000000 4\n'
  printf 'a ir 0x100000000 4\na cr 0 254 4\na cw 0 4 2 0x100000000\na cw 0 0x3c 1 0x1ff\na cr 0 0x3c 1\n'
  printf 'a cr 0X0 00 4\na cr +0 0 4\na cr 0x 0 4\na \377\n\377\n\000\n\ta\tcr 0 \t 0 4\r\n   \r\n'
  printf 'a cr\v0 0 4\na cr 0\f0 4\na\vcr 0 0 4\n\f\n\n\n# a cr 0 0 4\n  # a\n#\na cr 0 0 2\n'
  printf 'a cr 0 0 4%s\na cr 0 0 4%s \n%s%11s\n' "$longest" "$longest" "$longest" ''
  printf '#%199s\n\n#%200s\na cr 0 0' '' ''
} > ends.script
cat > wanted.out <<'END'
a: ok
a: ok
a: ok
a: 0xa5a5a5a5
a: 0x00000000
a: refused 401 bad line
a: refused 303 range
a: refused 301 misaligned
a: refused 401 bad line
a: ok
a: 0xff
a: 0x00011234
a: refused 401 bad line
a: refused 401 bad line
a: refused 401 bad line
?: refused 402 unknown guest
?: refused 402 unknown guest
a: 0x00011234
a: refused 401 bad line
a: refused 401 bad line
?: refused 402 unknown guest
?: refused 402 unknown guest
a: 0x1234
a: 0x00011234
?: refused 403 long line
?: refused 403 long line
?: refused 403 long line
a: refused 401 bad line
END
ends_with 'run, lines at the ends of what they may say' run "$main" < ends.script
cp told err
cat > wanted.err <<'END'
script:6: error: invalid address '0x10000000000000000' (expected a decimal or 0x-prefixed number below 2^64)
script:9: error: invalid value '0x100000000' (expected a decimal or 0x-prefixed number below 2^32)
script:13: error: invalid slot '+0' (expected a decimal or 0x-prefixed number below 2^64)
script:14: error: invalid slot '0x' (expected a decimal or 0x-prefixed number below 2^64)
script:15: error: unknown command '?' (expected cr, cw, ir, iw, mr, mw or raise)
script:20: error: unknown command 'cr?0' (expected cr, cw, ir, iw, mr, mw or raise)
script:21: error: invalid slot '0?0' (expected a decimal or 0x-prefixed number below 2^64)
script:36: error: missing width (expected 'cr SLOT OFFSET WIDTH')
END
tell 'run, why lines at the ends have no form'
for i in {1..23}; do echo 'host audit'; done > bad.script
for i in {1..23}; do echo 'host: refused 401 bad line'; done > wanted.out
timeout 60 "$program" run --strict "$main" < bad.script > out 2> err; status=$?
{
  for i in {1..20}; do echo "script:$i: error: unknown command 'audit' (expected cr, ir, mr or move)"; done
  printf 'script: 3 more malformed lines\npciguest: fault 209 refused line\n'
} > wanted.err
wanted=1
tell 'run, more lines without a form than are told of'
timeout 60 "$program" ready "$main" < /dev/null 2> /dev/null | cat <(echo 'host: refused 401 bad line') - > wanted.out
timeout 60 "$program" ready "$main" <<< 'host cr 1.0 0 4' > out 2> err; status=$?
printf "script:1: error: invalid function '1.0' (expected BB:DD.F)\npciguest: fault 208 not ready\n" > wanted.err
wanted=1
tell 'ready, why a line has no form before the fault'
printf '\xef\xbb\xbfa cr 0 0 4\na cr 0 0 4\n' > marked.script
printf '?: refused 402 unknown guest\na: 0x00011234\n' > wanted.out
timeout 60 "$program" run "$main" < marked.script > out 2> err; status=$?
echo 'script:1: error: the line begins with a byte order mark' > wanted.err
wanted=0
tell 'run, a script that begins with a byte order mark'

# ---- why a line has no form: each kind of word that is missing or wrong, by rows 'LINE -> REASON'
# reasons COMMAND: it tells these reasons of these lines, and nothing else
reasons() {
  cat > reasons.rows
  sed 's/ -> .*//' reasons.rows > reasons.script
  timeout 60 "$program" "$1" "$main" < reasons.script > told 2> err; status=$?
  : > out; : > wanted.out; wanted=0
  awk -F ' -> ' '{ print "script:" NR ": error: " $2 }' reasons.rows > wanted.err
  tell "$1, each reason for which a line has no form"
}
reasons run << 'END'
a -> missing command (expected cr, cw, ir, iw, mr, mw or raise)
a CR 0 0 4 -> unknown command 'CR' (expected cr, cw, ir, iw, mr, mw or raise)
a cr -> missing slot (expected 'cr SLOT OFFSET WIDTH')
a cr s -> invalid slot 's' (expected a decimal or 0x-prefixed number below 2^64)
a cr 0 -> missing offset (expected 'cr SLOT OFFSET WIDTH')
a cr 0 0 -> missing width (expected 'cr SLOT OFFSET WIDTH')
a cr 0 0 4 w -> unexpected word 'w' (expected 'cr SLOT OFFSET WIDTH')
a cw 0 0 4 -> missing value (expected 'cw SLOT OFFSET WIDTH VALUE')
a cw 0 0 4 -1 -> invalid value '-1' (expected a decimal or 0x-prefixed number below 2^32)
a ir -> missing port (expected 'ir PORT WIDTH')
a iw 0 4 1 2 3 4 5 6 -> unexpected word '2' (expected 'iw PORT WIDTH VALUE')
a mr -> missing address (expected 'mr ADDRESS WIDTH')
a mw 0 4 abcdefghijklmnopqrstuvwxyz0123456789 -> invalid value 'abcdefghijklmnopqrstuvwxyz012345' (expected a decimal or 0x-prefixed number below 2^32)
a raise 0 -> missing part (expected 'raise SLOT PART OFFSET MASK')
a raise 0 bar6 0 1 -> invalid part 'bar6' (expected cfg or bar0 to bar5)
a raise 0 cfg 0 -> missing mask (expected 'raise SLOT PART OFFSET MASK')
a raise 0 cfg 0 256 -> invalid mask '256' (expected a decimal or 0x-prefixed number below 2^8)
END
reasons run << 'END'
host -> missing command (expected cr, ir, mr or move)
host cw 00:01.0 0 4 1 -> unknown command 'cw' (expected cr, ir, mr or move)
host cr -> missing function (expected 'cr FUNCTION OFFSET WIDTH')
host cr 1.0 0 4 -> invalid function '1.0' (expected BB:DD.F)
host ir 0 4 4 -> unexpected word '4' (expected 'ir PORT WIDTH')
host mr 0 -> missing width (expected 'mr ADDRESS WIDTH')
host move -> missing guest (expected 'move GUEST SLOT GUEST SLOT')
host move a 0 z 1 -> invalid guest 'z' (expected a guest's name)
END
reasons firmware << 'END'
host -> missing command (expected cr, cw, ir, iw, mr, mw, why, audit, ready or guests)
host move a 0 b 1 -> unknown command 'move' (expected cr, cw, ir, iw, mr, mw, why, audit, ready or guests)
host cw 00:01.0 0 4 -> missing value (expected 'cw FUNCTION OFFSET WIDTH VALUE')
host iw 0 4 v -> invalid value 'v' (expected a decimal or 0x-prefixed number below 2^32)
host mw 0 -> missing width (expected 'mw ADDRESS WIDTH VALUE')
host why -> missing space (expected 'why SPACE PLACE')
host why pref 0 -> invalid space 'pref' (expected mem, io or cfg)
host why mem -> missing address (expected 'why SPACE PLACE')
host why cfg 0 -> invalid function '0' (expected BB:DD.F)
host why io 0 4 -> unexpected word '4' (expected 'why SPACE PLACE')
host guests a -> unexpected word 'a' (expected 'guests')
END
head -c 201 /dev/zero | tr '\0' '\r' > returns
echo '?: refused 403 long line' > wanted.out
ends_with 'run, a line of 201 returns' run "$main" < returns

# ---- boards at the ends of their apertures
cat > top.toml <<'END'
host = { io = [0x1000, 0xffff], mem = [0xfff00000, 0xffffffff] }
bridge = [ { at = "0.0", vendor = 0x1234, device = 2, io = "none", pref = "none" } ]
[[endpoint]]
at = "0.0/0.0"
vendor = 0x1234
device = 3
class = 0xff0000
bar = [ { index = 0, kind = "mem32", size = 0x100000 } ]
END
cat > wanted.out <<'END'
endpoints 1 bridges 1
00:00.0 0.0 bridge 1234:0002 buses 00 01 01
  mem 0xfff00000 0xffffffff
01:00.0 0.0/0.0 endpoint 1234:0003
  bar0 mem32 at 0xfff00000 size 0x100000
END
ends_with 'list, the last megabyte below 4 GB' list top.toml
printf 'host cr 00:00.0 0x20 2\nhost cr 00:00.0 0x22 2\nhost mr 0xffffffff 1\nhost mr 0x100000000 1\nhost mr 0xffefffff 1\n' > top.script
printf 'host: 0xfff0\nhost: 0xfff0\nhost: 0x00\nhost: 0xff\nhost: 0xff\n' > wanted.out
ends_with 'run, the last megabyte below 4 GB' run top.toml < top.script
sed 's/^pref = .0x4.*/pref = [0x7ffffffffff00000, 0x7fffffffffffffff]/' "$main" > high.toml
fails_with 'list, the last megabyte below 2^63' '205 prefetchable pool' list high.toml

# ---- board files that nobody meant to write
sed 's/$/\r/' "$main" > crlf.toml
{ printf '\357\273\277'; cat "$main"; } > mark.toml
for board in crlf.toml mark.toml; do
  section main.toml > wanted.out
  ends_with "list, $board" list "$board"
done
printf '# \000\n' > nul.toml
{ printf 'x = '; head -c 1000 /dev/zero | tr '\0' '['; } > nested.toml
head -c 1000000 /dev/zero | tr '\0' x > line.toml
for board in nul.toml nested.toml line.toml; do
  fails_with "list, $board" '101 not TOML' list "$board"
done

# ---- standard streams that are closed
timeout 60 "$program" run "$main" < run.script >&- 2> err; status=$?
tell_unwritten 'run, standard output closed'

# each line is answered before the next one is sent
coproc asked { timeout 60 "$program" run "$main" 2> err; }
pid=$asked_PID to=${asked[1]} from=${asked[0]}
: > out
while read -r line; do
  case $line in '#'*) continue ;; esac
  echo "$line" >&"$to"
  read -r -t 20 reply <&"$from" || reply='no answer'
  echo "$reply" >> out
done < run.script
eval "exec $to>&-"
wait "$pid"; status=$?
cp run.wanted wanted.out; : > wanted.err; wanted=0
tell 'run, line by line through a pipe'

# ---- help, of the program and of each command that it lists
help_of() { section "$1" "$top/tests/help.txt"; }
help_of --help > wanted.out
ends_with '--help' --help
ends_with '-h' -h
ends_with 'help' help
full '--help' --help
for verb in $(help_of --help | sed -n 's/^  \([a-z]*\)  .*/\1/p' | grep -vx help); do
  help_of "$verb" > wanted.out
  ends_with "help $verb" help $verb
  ends_with "$verb --help" $verb --help
  ends_with "$verb -h and more" $verb -h x y
done

# ---- the version, which is the library's
sed -n 's/^#define PCIGUEST_VERSION "\(.*\)"/pciguest \1/p' "$top/library/pciguest.h" > wanted.out
ends_with '--version' --version
ends_with '-V' -V
full '--version' --version

# ---- words
fails_with 'no word' "$usage"
fails_with 'a word too many for ready' "$usage" ready "$main" y
fails_with 'a word too many for list' "$usage" list "$main" y
fails_with 'a word too many for demo' "$usage" demo demo
fails_with 'an unknown word' "$usage" x
fails_with 'another case' "$usage" Demo
fails_with 'two words after help' "$usage" help list x
fails_with '--version of list' "$usage" list --version
fails_with 'an unknown option' "$usage" demo --x
fails_with 'a word that is no text' "$usage" $'\377'

# ---- what follows a fault
# hints 'N WORDS' 'TEXT' WORDS..: it ends with this fault, and with this text below it, if there is one
hints() {
  local fault=$1 text=$2; shift 2
  timeout 60 "$program" "$@" > /dev/null 2> err < /dev/null; status=$?
  : > out; : > wanted.out; wanted=1
  { echo "pciguest: fault $fault"; [ -z "$text" ] || echo "$text"; } > wanted.err
  tell "what follows: $*"
}
# mistakes 'ERROR' 'USAGE' WORDS..: it ends with a fault of usage, and says what is wrong and how it is used
mistakes() {
  local error=$1 use=$2; shift 2
  hints "$usage" "error: $error

Usage: pciguest $use

For more information, try '--help'." "$@"
}
mistakes "'pciguest' requires a subcommand but one was not provided
  [subcommands: demo, list, check, run, firmware, audit, ready, help]" '<COMMAND>'
mistakes "unrecognized subcommand 'lst'

  tip: a similar subcommand exists: 'list'" '<COMMAND>' lst board.toml
mistakes "unrecognized subcommand 'nothing'" '<COMMAND>' help nothing
mistakes "unrecognized subcommand 'a?b??'" '<COMMAND>' $'a\tb\303\251'
mistakes "unexpected argument '--x' found" 'demo' demo --x
mistakes "unexpected argument 'y' found" 'list [OPTIONS] <BOARD>' list -- board.toml y z
mistakes "unexpected argument '--plain' found

  tip: to pass '--plain' as a value, use '-- --plain'" 'list [OPTIONS] <BOARD>' list --plain board.toml
mistakes "unexpected argument '-s' found

  tip: to pass '-s' as a value, use '-- -s'" 'audit [OPTIONS] <BOARD>' audit -s board.toml
mistakes "unexpected value '1' for '--plain' found; no more were expected" 'check --plain <BOARD>' check --plain=1 board.toml
mistakes "the argument '--json' cannot be used multiple times" 'list [OPTIONS] <BOARD>' list --json --json board.toml
mistakes 'the following required arguments were not provided:
  <BOARD>' 'run <BOARD>' run
hints '702 board file' "error: cannot read 'nothing.toml': no such file" list nothing.toml
hints '702 board file' "error: cannot read '': no such file" run ''
hints '702 board file' "error: cannot read '.': is a directory" check .
hints '702 board file' "error: cannot read 'board.toml/x': not a directory" firmware board.toml/x
ln -s loop.toml loop.toml
hints '702 board file' "error: cannot read 'loop.toml': too many levels of symbolic links" audit loop.toml
long=$(printf 'n%.0s' {1..256})
hints '702 board file' "error: cannot read '$long': file name too long" ready "$long"
python3 -c "import socket; socket.socket(socket.AF_UNIX).bind('socket.toml')"
hints '702 board file' "error: cannot read 'socket.toml': the system refuses to read it" check socket.toml
: > locked.toml
chmod 0 locked.toml
[ -r locked.toml ] || hints '702 board file' "error: cannot read 'locked.toml': permission denied" list locked.toml
hints '101 not TOML' "help: run 'pciguest check ff.toml' to list all problems" list ff.toml
hints '102 key' "help: run 'pciguest check empty.toml' to list all problems" audit empty.toml
hints '204 memory pool' "help: run 'pciguest check $boards/refused/memory_pool.toml' to list all problems" run "$boards/refused/memory_pool.toml"
hints '101 not TOML' '' check ff.toml
hints '208 not ready' '' ready "$main"

# ---- a fault that can't be told ends with its status all the same
timeout 60 "$program" x > out 2> /dev/full; status=$?
: > wanted.out; : > err; : > wanted.err; wanted=1
tell 'a fault, standard error full'

counted
