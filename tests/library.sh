#!/usr/bin/env bash
# Uses the library for C as a C program does: the example, random accesses by calls and by lines, which the proved
# program must answer alike, boards that firmware drives, what the library refuses, and eight threads; once plain, and,
# where the compiler has sanitizers, once under them.
# Then it runs the tests of the crate for Rust and of the module for Python, where cargo and Python 3 are there.
#     tests/library.sh [PROGRAM]
# PROGRAM is the one that `rt ci` or `make build` left, unless it is given. The last line is 'N passed, M failed'.
set -u
cd "$(dirname "$0")/.."
source tests/holds.sh
program=$(readlink -f "${1:-crates/pciguest/out/pciguest}")
board=$top/boards/main.toml
compile=${CC:-cc}
[ -x "$program" ] || { echo "no program at $program: make build"; echo '0 passed, 1 failed'; exit 1; }
command -v "$compile" > /dev/null || { skips 'the library' 'no C compiler' gcc; counted; exit; }
tools/bindings
[ -e library/libpciguest.a ] || tools/library || { echo '0 passed, 1 failed'; exit 1; }

cd "$room" || exit 1

# build NAME FILE WORD..: compiles one file with the library
build() {
  local name=$1 file=$2; shift 2
  "$compile" -std=c11 -O1 -g -Wall -Wextra -Werror -I. -I"$top/library" "$@" -o "$name" "$file" "$top/library/libpciguest.a"
}

# boards with their functions behind two more bridges, beside others and at other addresses
for name in main server demo; do
  { sed -E 's|"([0-9]+\.[0-9][0-9./]*)"|"6.0/3.0/\1"|g; s/io = \[0x1000/io = [0x3000/; s/mem = \[0xc0000000/mem = [0x80000000/' \
      "$top/boards/$name.toml"; cat "$top/tests/library/beside.toml"; } > "elsewhere.$name.toml"
done

# the numbers of docs/errors.md, each with its text
sed -n 's/^| \([0-9]\{3\}\) | `\([^`]*\)` | .*/{\1, "\2"},/p' "$top/docs/errors.md" > errors.inc
wraps=(-Wl,--wrap=malloc -Wl,--wrap=realloc -Wl,--wrap=free)

# built FILE WORD..: compiles a program of this kind, NAME.KIND for NAME.c
built() {
  local name; name=$(basename "$1" .c)
  holds "$kind: $name.c is built" build "$name.$kind" "$top/$1" "${flags[@]}" "${@:2}"
}

# build_hostile KIND: compiles the test of the devices in examples/kvm, which needs no KVM
build_hostile() {
  local devices; devices=$(sed -n 's/^devices := //p' "$top/examples/kvm/Makefile")
  (cd "$top/examples/kvm" && "$compile" -std=gnu11 -O1 -g -Wall -Wextra -Werror -I"$top/library" -pthread "${flags[@]}" \
    -o "$room/hostile.$1" hostile.c $devices "$top/library/libpciguest.a")
}

# seeded FILE BOARD COUNT WHAT WORD..: compiles a program too, and runs it with three seeds
seeded() {
  built "$1" "${@:5}"
  for seed in 1 2 3; do holds "$kind: $4, seed $seed" "./$(basename "$1" .c).$kind" "$2" "$3" "$seed"; done
}

# ---- plain, and under the sanitizers
echo 'int main(void) { return 0; }' > empty.c
kinds=(plain)
"$compile" -fsanitize=address,undefined -o empty empty.c 2> /dev/null && ./empty 2> /dev/null && kinds+=(sanitized)
[ ${#kinds[@]} = 2 ] || skips 'the library under sanitizers' 'the compiler has none' gcc
for kind in "${kinds[@]}"; do
  flags=()
  [ "$kind" != sanitized ] || flags=(-fsanitize=address,undefined -fno-sanitize-recover=all)
  built examples/c/device.c
  "./device.$kind" "$top/examples/device.toml" > "device.$kind.out" 2>&1
  holds "$kind: the example" cmp "device.$kind.out" "$top/tests/library/device.stdout"

  built tests/library/accesses.c
  for seed in 1 2 3; do
    holds "$kind: calls and lines answer alike, seed $seed" "./accesses.$kind" "$board" 10000 "$seed" script replies
    "$program" run "$board" < script > answers 2>&1
    holds "$kind: the program answers alike, seed $seed" cmp answers replies
  done

  seeded tests/library/queries.c "$board" 2000 'queries'
  seeded tests/library/why.c "$board" 2000 'why guests find what they find' "${wraps[@]}"
  seeded tests/library/functions.c "$board" 2000 'functions of the board'
  seeded tests/library/wide.c "$board" 20000 'wide accesses'
  seeded tests/library/devices.c "$board" 20000 'wide accesses of devices'
  seeded tests/library/regions.c "$board" 20000 'accesses by regions and by addresses'
  seeded tests/library/images.c "$board" 2000 'images of guests'
  seeded tests/library/machines.c "$top/boards/server.toml" 2000 'images of machines'
  seeded tests/library/boards.c "$board" 20000 'boards of firmware, by calls and by lines' "${wraps[@]}"
  seeded tests/library/driven.c "$board" 5000 'functions of a board of firmware'

  built tests/library/declare.c
  holds "$kind: tables of endpoints from names and widths" "./declare.$kind" "$top/examples/device.toml"
  built tests/library/messages.c
  holds "$kind: Bus Master and messages of MSI-X" "./messages.$kind" "$top/tests/library/messages.toml"
  holds "$kind: the devices of examples/kvm are built" build_hostile "$kind"
  holds "$kind: the devices of examples/kvm, with drivers and images that mean harm" \
    "./hostile.$kind" "$top/examples/kvm/board.toml" 5000
  built tests/library/given.c "${wraps[@]}"
  holds "$kind: guests over a board of one's own" "./given.$kind" "$board"
  built tests/library/firmware.c
  "./firmware.$kind" "$board" > "firmware.$kind.out" 2>&1
  holds "$kind: the firmware" cmp "firmware.$kind.out" "$top/tests/library/firmware.stdout"

  built tests/library/loads.c
  for name in main kinds server; do
    holds "$kind: images that were changed, over $name.toml" "./loads.$kind" "$top/boards/$name.toml" 5000 1
  done
  built tests/library/migrating.c
  for script in main/{guest,two_guests,raise,host,ports,move} server/server demo/demo; do
    holds "$kind: guests and machines of ${script%/*}.toml go on elsewhere, by ${script#*/}.script" "./migrating.$kind" \
      "$top/boards/${script%/*}.toml" "elsewhere.${script%/*}.toml" "$top/boards/${script#*/}.script"
  done

  built tests/library/checks.c
  for file in "$top"/boards/*.toml "$top"/boards/refused/*.toml; do
    cp "$file" board.toml
    "$program" check board.toml > wanted.text 2> told
    cut -d ' ' -f 1-3 told > wanted.fault
    "./checks.$kind" board.toml > found.text 2> found.fault
    holds "$kind: the check of $(basename "$file")" sh -c 'cmp wanted.text found.text && cmp wanted.fault found.fault'
  done

  built tests/library/refusal_rows.c
  holds "$kind: the rows of refusals" "./refusal_rows.$kind" "$board" "$top/tests/library/refusals.txt"
  built tests/library/refusals.c "${wraps[@]}"
  { "$program" list --json "$board"; "$program" list "$board"; } > wanted.report
  holds "$kind: what is refused" sh -c "./refusals.$kind '$board' > report"
  holds "$kind: the reports" cmp report wanted.report
done

# ---- eight threads over one struct, and under helgrind where that is, for which library/calls.c says what orders them
holds 'the threads are built' build threads "$top/tests/library/threads.c" -pthread -Wl,--wrap=malloc
rows=$top/tests/library/refusals.txt
holds 'threads' ./threads "$board" 20000 "$rows"
echo '#include <valgrind/helgrind.h>' > watched.c
if command -v valgrind > /dev/null && "$compile" -fsyntax-only watched.c 2> /dev/null; then
  holds 'the threads are built for helgrind' build watched "$top/tests/library/threads.c" "$top/library/calls.c" \
    -include "$top/tests/library/watched.h" -pthread -Wl,--wrap=malloc
  holds 'threads under helgrind' valgrind --quiet --tool=helgrind --error-exitcode=1 ./watched "$board" 100 "$rows"
else
  skips 'threads under helgrind' 'no valgrind' valgrind
fi

# ---- the header by itself, in the oldest languages that have what it includes, as C++ too where there is a compiler
echo '#include "pciguest.h"' > header.c
cp header.c header.cc
holds 'the header alone' "$compile" -std=c99 -Wall -Wextra -Wpedantic -Werror -I"$top/library" -c header.c
echo 'int main() { struct pciguest machine = PCIGUEST_INIT; return machine.live; }' >> header.cc
if command -v c++ > /dev/null; then
  for words in c++98 c++11 c++17; do
    holds "the header as $words" c++ "-std=$words" -Wall -Wextra -Wpedantic -Werror -I"$top/library" -c header.cc
  done
else
  skips 'the header in C++' 'no c++' g++
fi

# ---- a program that has another library of Rattle beside it, with names that this one has too
echo 'int pciguest_piece, pciguest_ends_within; void rattle_alloc(void) { __builtin_trap(); }' > beside.c
echo 'void rattle_dealloc(void) { __builtin_trap(); } void rattle_realloc(void) { __builtin_trap(); }' >> beside.c
holds 'another library is built' "$compile" -c beside.c
holds 'the example beside another library is built' build beside "$top/examples/c/device.c" -Wl,--whole-archive beside.o \
  "$top/library/libpciguest.a" -Wl,--no-whole-archive
holds 'the example beside another library' \
  sh -c "./beside '$top/examples/device.toml' | cmp - '$top/tests/library/device.stdout'"

# ---- the crates for Rust as they are packed, outside the repository and with no registry: their tests, and the examples of
# their documentation; without the standard library; and in the examples, of which a hypervisor takes Debian's crates
offline() { env -u PCIGUEST_LIBRARY_DIR -C "$1" CARGO_HOME="$room/cargo" CARGO_TARGET_DIR="$room/$2" "${@:3}"; }
if cargo --version > /dev/null 2>&1; then
  mkdir -p outside/.cargo outside/bare/src
  echo 'patch.crates-io.pciguest-sys.path = "pciguest-sys"' > outside/.cargo/config.toml
  holds 'Rust: the tests read their files in the repository too' \
    offline "$top/library/rust" target cargo check --offline --quiet --workspace --tests
  holds 'Rust: the crates are packed' offline "$top" target tools/cargo "$room/packed"
  for crate in pciguest-sys pciguest; do
    holds "Rust: $crate is packed" tar -C outside -xzf packed/"$crate"-[0-9]*.crate
    mv outside/"$crate"-[0-9]* "outside/$crate"
    holds "Rust: the tests of $crate" offline "outside/$crate" target cargo test --offline --quiet
  done
  cp "$top/tests/library/bare.rs" outside/bare/src/main.rs
  printf '[package]\nname = "bare"\nedition = "2021"\n[profile.dev]\npanic = "abort"\n[dependencies]\n%s\n' \
    'pciguest = { path = "../pciguest", default-features = false }' > outside/bare/Cargo.toml
  holds 'Rust: the crate without the standard library' offline outside/bare target cargo run --offline --quiet
  mkdir -p outside/carried/src
  cp "$top/tests/library/carried.rs" outside/carried/src/main.rs
  printf '[package]\nname = "carried"\nedition = "2021"\n[dependencies]\npciguest = { path = "../pciguest" }\n' > outside/carried/Cargo.toml
  holds 'Rust: the program that saves a machine is built' offline outside/carried target cargo build --offline --quiet
  offline "$top/examples/rust" device env RUSTFLAGS='-D warnings' make -s > device.rust.out
  holds 'Rust: the example prints what the one in C does' cmp device.rust.out "$top/tests/library/device.stdout"
  offline "$top/examples/rust" device env RUSTFLAGS='-D warnings' make -s entropy > entropy.rust.out 2>&1
  holds 'Rust: the virtio device and its driver' cmp entropy.rust.out "$top/tests/library/entropy.stdout"
  if ls -d /usr/share/cargo/registry/vm-{memory,superio}-* > /dev/null 2>&1; then
    offline "$top/examples/rust" vmm make -s vmm > vmm.out
    holds 'Rust: the buses of a hypervisor' \
      test "$(cat vmm.out)" = $'serial: 0 printed\nprinter: read from RAM by the device\nserial: 1 printed'
  else
    skips 'a hypervisor in Rust' 'no crates of VMMs' 'librust-vm-memory-dev librust-vm-superio-dev'
  fi
else
  skips "Rust's crates" 'no cargo' cargo
fi

# python WORD..: Python with the module and this library
python() {
  env PYTHONPATH="$top/library/python" PYTHONDONTWRITEBYTECODE=1 PCIGUEST_LIBRARY_DIR="$top/library" python3 "$@"
}

# ---- the module for Python: its tests, the examples of its documentation, and the example
if ! command -v python3 > /dev/null; then
  skips "Python's module" 'no Python 3' python3
elif [ ! -e "$top/library/libpciguest.so.0" ]; then
  skips "Python's module" 'no library/libpciguest.so.0: make library'
else
  command -v mypy > /dev/null || skips "the types of Python's module" 'no mypy' mypy
  holds 'Python: the tests of the module' python -m unittest discover -s "$top/library/python/tests"
  holds 'Python: random guests, saved and loaded as by a second hand' python "$top/tests/fuzz/images.py" --guests 200
  holds 'Python: random machines, saved and loaded as by a second hand' python "$top/tests/fuzz/machines.py" --machines 20
  python "$top/examples/python/device.py" "$top/examples/device.toml" > device.python.out 2>&1
  holds 'Python: the example prints what the one in C does' cmp device.python.out "$top/tests/library/device.stdout"
  python "$top/examples/python/entropy.py" "$top/examples/entropy.toml" > entropy.python.out 2>&1
  holds 'Python: the virtio device and its driver' cmp entropy.python.out "$top/tests/library/entropy.stdout"
fi

# ---- a machine that is saved in one process and goes on in another, in each of the languages that are here
holds 'the program that saves a machine is built' build carried "$top/tests/library/carried.c"
languages=(C)
[ ! -x target/debug/carried ] || languages+=(Rust)
! command -v python3 > /dev/null || [ ! -e "$top/library/libpciguest.so.0" ] || languages+=(Python)
in_C() { ./carried "$1" "$board"; }
in_Rust() { target/debug/carried "$1" "$board"; }
in_Python() { python "$top/tests/library/carried.py" "$1" "$board"; }
goes_on() { test "$("in_$2" load 2>&1 < "image.$1")" = $'b: 0x0b\na: 0xffffffff'; }
for here in "${languages[@]}"; do
  "in_$here" save > "image.$here" 2> /dev/null
  for there in "${languages[@]}"; do holds "a machine saved in $here goes on in $there" goes_on "$here" "$there"; done
done

# ---- the lines that docs/library-c.md and docs/vmm-integration.md print, in a program: its firmware reads what the region on
# the board begins with, and an empty file is refused
awk '/^```/ { on = $0 == "```c"; next } on' "$top"/docs/{library-c,vmm-integration}.md > lines.c
{
  echo '#include <stdio.h>'
  grep '^#include' lines.c
  echo 'static char board[65536]; int main(void) { size_t length = fread(board, 1, sizeof board, stdin);'
  grep -v '^#include' lines.c
  echo 'printf("%u %x\n", fault, value); return 0; }'
} > printed.c
holds 'the lines of library-c.md and vmm-integration.md are built' build printed printed.c
holds 'the lines of library-c.md and vmm-integration.md' test "$(./printed < "$board")" = '0 a5a5a5a5'
holds 'the lines of both over an empty file' test "$(./printed < /dev/null)" = '102 0'

# ---- the example that saves a guest, restores it, and lets it go on over another board
holds 'the example that migrates a guest is built' build migrate "$top/examples/c/migrate.c"
migrated=$(printf '0xffffffff\n0x12345678')
holds 'the example that migrates a guest' \
  test "$(./migrate "$board" "$top/tests/rows/other_places.toml")" = "$migrated"
if [ -e "$top/library/libpciguest.so.0" ] && command -v python3 > /dev/null; then
  holds 'the same in Python' \
    test "$(python "$top/examples/python/migrate.py" "$board" "$top/tests/rows/other_places.toml")" = "$migrated"
fi

# ---- the example that saves a whole machine
holds 'the example that saves a machine is built' build whole "$top/examples/c/whole_machine.c"
holds 'it has twenty lines' test "$(grep -vc '^/\*' "$top/examples/c/whole_machine.c")" -le 20
holds 'the example that saves a machine' test "$(./whole < "$board")" = 0x0b

# ---- the rows of functions that library-c.md prints
{
  printf '#include <stdio.h>\n#include "pciguest.h"\nstatic char board[65536]; int main(void) {\n'
  echo 'struct pciguest machine = PCIGUEST_INIT; pciguest_new(&machine, board, fread(board, 1, sizeof board, stdin));'
  sed -n '/^struct pciguest_function row /,/^```/p' "$top/docs/library-c.md" | grep -v '^```'
  echo 'pciguest_free(&machine); return 0; }'
} > rows.c
holds 'the rows of library-c.md are built' build rows rows.c
holds 'the rows of library-c.md' test "$(./rows < "$board" | tail -n 1)" = '01:01.0 2.0/1.0 1234:0004'

# ---- the ECAM of vmm-integration.md: identity, a register that is written, and all ones from 100h on, in an empty slot and off function 0 of bus 0
{
  echo '#include <stdio.h>'
  echo '#include "pciguest.h"'
  sed -n '/^static uint32_t ecam_read/,/^```/p' "$top/docs/vmm-integration.md" | grep -v '^```'
  cat << 'END'
static char board[65536];
int main(void)
{
    static const uint64_t offsets[] = {0x0, 0x3c, 0x100, 0x7 << 15, 0x1 << 12, 0x1 << 20};
    struct pciguest machine = PCIGUEST_INIT;

    if (pciguest_new(&machine, board, fread(board, 1, sizeof board, stdin)))
        return 1;
    for (size_t i = 0; i < sizeof offsets / sizeof *offsets; i++) {
        if (offsets[i])
            ecam_write(&machine, 0, offsets[i], 1, 0x0b);
        printf("%x ", ecam_read(&machine, 0, offsets[i], 4));
    }
    pciguest_free(&machine);
    return 0;
}
END
} > ecam.c
holds 'the ECAM of vmm-integration.md is built' build ecam ecam.c
holds 'the ECAM of vmm-integration.md' test "$(./ecam < "$top/examples/device.toml")" = 'd0b1234 10b ffffffff ffffffff ffffffff ffffffff '

# ---- what the library takes from outside, and what it gives
needs() { nm -u "$top/library/libpciguest.a" | awk 'NF == 2 && $2 !~ /^pciguest_/ { print $2 }' | sort -u | tr '\n' ' '; }
holds 'six calls of the C library, and no more' test "$(needs)" = 'free malloc memcpy memmove memset realloc '
exported() { nm --defined-only "$top/library/libpciguest.a" | awk '$2 ~ /[A-Z]/ { print $3 }' | sort -u; }
holds 'the library exports the calls of the header, those that they stand over, and those of earlier headers' test "$(declared)" = "$(exported)"

counted
