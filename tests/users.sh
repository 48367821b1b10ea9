#!/usr/bin/env bash
# Does, from the tarball and as somebody without the kit, what the README gives to each of its readers: who writes firmware,
# a hypervisor, a driver or device, and who teaches. It tells how long each of them waited; the last line is 'N passed,
# M failed'. Where the kit stands at /opt, `unshare -m sh -c 'mount -t tmpfs none /opt && tests/users.sh FOLDER'` hides it.
#     tests/users.sh FOLDER      the folder in which the tarball was unpacked
set -u
[ $# = 1 ] || { echo 'usage: tests/users.sh FOLDER' >&2; exit 2; }
folder=$(realpath "$1")
cd "$(dirname "$0")/.."
source tests/holds.sh
cp -r "$folder" "$room/unpacked"
cd "$room/unpacked" || exit 1

# outside COMMAND..: without the kit, and with nothing of this repository
outside() {
  env -i PATH=/usr/bin:/bin HOME="$room" PKG_CONFIG_PATH="$PWD/lib/pkgconfig" \
    PYTHONPATH="$PWD/share/pciguest/python" PYTHONDONTWRITEBYTECODE=1 "$@"
}

has() { command -v "$1" > /dev/null; }
began=$EPOCHREALTIME
waited=()
# done_by READER: how long that reader has waited
done_by() {
  waited+=("$1 $(awk "BEGIN { printf \"%.1f\", $EPOCHREALTIME - $began }") s")
  began=$EPOCHREALTIME
}

# ---- nothing of the kit is there
holds 'no kit' outside sh -c '! command -v rt'

# ---- all: what the README, the formats and the lessons that were packed print is what their commands write there
holds 'the commands of the documents' outside bash "$top/tests/commands.sh" ./pciguest "$PWD"
done_by 'who reads the documents'

# ---- firmware: boards at reset, broken firmware, and a session
audits() { cat examples/audit/set_up.script examples/audit/"$1".script | outside ./pciguest audit examples/audit/board.toml; }
holds 'an audit of broken firmware' sh -c 'echo "$1" | grep -q "not forwarded by bridge 2.0"' - "$(audits limit_short)"
holds 'a session' same examples/session/session.stdout \
  outside sh -c './pciguest firmware examples/session/board.toml < examples/session/session.script 2> session.told'
commands=$(echo host | outside ./pciguest run boards/main.toml 2>&1 | sed -n 's/.*missing command //p')
holds 'why lines of it have no form' same session.told \
  printf "script:%s: error: unknown command '%s' $commands\n" 21 audit 22 ready 23 why

# ---- firmware: an enumerator on many boards, and with each of its mistakes, by the words of firmware-testing.md
testing=docs/firmware-testing.md
tested() { outside env -u PYTHONPATH "$@"; }
# typed PATTERN: the command that the page gives for the tarball
typed() { grep -oE '`[^`]*`' "$testing" | tr -d '`' | grep -m1 -E "$1"; }
if has cc && has make && /usr/bin/python3 -c 'import tomllib' 2> /dev/null; then
  holds 'the enumerator is built' tested sh -c "$(typed '^cc -Iinclude .*enumerator')"
  tested sh -c "$(typed '^bin/pciguest-firmware-test -- ./enumerator$')" > told
  holds 'what it does on all boards' grep -qxF "$(grep -E '^[0-9]+ boards: ' "$testing")" told
  holds 'its mistakes are built' tested make -s -C examples/firmware
  for mistake in gap_in_functions multifunction_bit sized_while_open subordinate_low upper_half_forgotten window_a_unit_short; do
    tested bin/pciguest-firmware-test -- "examples/firmware/out/$mistake" > told
    holds "$mistake is found" test $? = 1
    holds "$mistake is shrunk" grep -qE 'on this board \([1-3] functions?\)' told
    tested sh -c "$(sed -n 's/^this board again: *//p' told)" > again
    holds "$mistake, run again" test "$(grep -E '^(audit|ready|sizing): ' told)" = "$(grep -E '^(audit|ready|sizing): ' again)"
  done
else
  skips 'firmware from the tarball' 'no C compiler, no make or no Python 3.11' 'gcc make python3'
fi

done_by 'who writes firmware'

# ---- a hypervisor: the program in C, by make and by pkg-config, and the crate for Rust
device=$top/tests/library/device.stdout entropy=$top/tests/library/entropy.stdout
if has cc && has make; then
  holds 'make -C examples/c' outside make -s -C examples/c
  holds 'the test of a driver written for Linux' outside make -s -C examples/driver
  holds 'the program in C' same "$device" outside make -s -C examples/c
  if has pkg-config; then
    holds 'cc and pkg-config' outside sh -c 'cc -Wall -Werror -o shared examples/c/device.c $(pkg-config --cflags --libs pciguest)'
    holds 'it needs the shared library' sh -c 'readelf -dW shared | grep -q "NEEDED.*libpciguest.so.0"'
    holds 'over the shared library' same "$device" outside env LD_LIBRARY_PATH=lib ./shared examples/device.toml
  else
    skips 'the shared library of the tarball' 'no pkg-config' pkg-config
  fi
else
  skips 'C over the tarball' 'no C compiler or no make' 'gcc make'
fi
if cargo --version > /dev/null 2>&1; then
  mkdir -p crate/src
  printf '[package]\nname = "user"\nversion = "0.1.0"\nedition = "2021"\n[dependencies]\npciguest = { path = "../share/pciguest/rust" }\n' \
    > crate/Cargo.toml
  printf 'fn main() {\n    println!("{}", pciguest::report(std::fs::read("board.toml").unwrap()).unwrap());\n}\n' > crate/src/main.rs
  cp docs/lessons/board.toml board.toml
  outside ./pciguest list board.toml > wanted; echo >> wanted
  with_cargo() { env -u PCIGUEST_LIBRARY_DIR "$@"; }
  holds 'the crate for Rust' with_cargo cargo build --offline --quiet --manifest-path crate/Cargo.toml
  holds 'what it reports' same wanted with_cargo cargo run --offline --quiet --manifest-path crate/Cargo.toml
  holds 'the program in Rust' same "$device" with_cargo make -s -C examples/rust
  holds 'the virtio device in Rust' same "$entropy" with_cargo make -s -C examples/rust entropy
  if ls -d /usr/share/cargo/registry/vm-{memory,superio}-* > /dev/null 2>&1; then
    holds 'the buses of a hypervisor in Rust' with_cargo sh -c 'make -s -C examples/rust vmm | grep -qx "serial: 1 printed"'
  else
    skips 'a hypervisor in Rust over the tarball' 'no crates of VMMs' 'librust-vm-memory-dev librust-vm-superio-dev'
  fi
else
  skips 'Rust over the tarball' 'no cargo' cargo
fi

done_by 'who writes a hypervisor'

# ---- a driver or a device: the module for Python
if has python3; then
  holds 'env.sh' outside env -u PYTHONPATH sh -c '. ./env.sh && python3 -c "import pciguest; pciguest.version()"'
  outside python3 examples/python/doorbell.py > rings
  holds 'the device in Python' grep -qx 'driver: 2 rings, status 1' rings
  holds 'the device model in Python' same "$device" outside python3 examples/python/device.py examples/device.toml
  holds 'the virtio device in Python' same "$entropy" outside python3 examples/python/entropy.py examples/entropy.toml
  done_by 'who writes a device'
  # ---- who teaches: its prompt, the page, and the lessons, whose commands were run above
  printf 'a.vendor\ntree\n' | outside python3 -m pciguest boards/main.toml > answers
  holds 'the prompt' grep -qx 'a: 0x1234' answers
else
  skips 'Python over the tarball' 'no Python 3' python3
fi
holds 'the schema that boards name' test -e examples/board.schema.json
for board in boards/*.toml examples/*.toml examples/*/*.toml; do
  named=$(sed -n '1s/^#:schema //p' "$board")
  [ -z "$named" ] || holds "$board names it" test -e "$(dirname "$board")/$named"
done
if [ -e pciguest.html ]; then
  holds 'the page asks for nothing from elsewhere' sh -c '! grep -oE "(src|href)=.?https?:[^ >]*" pciguest.html'
fi
holds 'the manual' test -s share/man/man1/pciguest.1
done_by 'who teaches'

printf 'waited: '; printf '%s; ' "${waited[@]}"; echo

counted
