#!/usr/bin/env bash
# Installs what `make build` and `make library` left into an empty folder, takes it away again, packs it, and uses the
# tarball as somebody without the kit does. The last line is 'N passed, M failed'.
set -u
cd "$(dirname "$0")/.."
source tests/holds.sh
if ! [ -x pciguest ] || ! [ -e library/libpciguest.a ] || ! [ -e library/libpciguest.so.0 ]; then
  echo 'nothing is built: make build library'; echo '0 passed, 1 failed'; exit 1
fi

# ---- installed below a folder of a package, by make
installing=(make --no-print-directory PREFIX=/usr "DESTDIR=$room/package" LIBDIR=lib/x86_64-linux-gnu)
holds 'make install' "${installing[@]}" install
at=$room/package/usr
for file in bin/pciguest include/pciguest.h lib/x86_64-linux-gnu/libpciguest.a lib/x86_64-linux-gnu/libpciguest.so.0 \
  lib/x86_64-linux-gnu/libpciguest.so lib/x86_64-linux-gnu/pkgconfig/pciguest.pc share/man/man1/pciguest.1 \
  share/man/man1/pciguest-firmware-test.1 share/man/man3/libpciguest.3 share/bash-completion/completions/pciguest share/zsh/site-functions/_pciguest \
  share/fish/vendor_completions.d/pciguest.fish share/doc/pciguest/docs/errors.md share/doc/pciguest/docs/RESULTS.md share/pciguest/board.schema.json \
  share/pciguest/rust/Cargo.toml share/pciguest/rust/src/lib.rs share/pciguest/rust/sys/Cargo.toml share/pciguest/rust/sys/src/raw.rs share/pciguest/python/pyproject.toml \
  share/pciguest/python/pciguest/py.typed share/doc/pciguest/examples/session/session.stdout share/doc/pciguest/boards/main.toml \
  include/pciguest_{ops,declare,driver}.h bin/pciguest-firmware-test share/pciguest/python/pciguest/{firmware,rom}_test.py share/pciguest/own.toml \
  share/pciguest/python/README.md; do
  holds "$file is installed" test -e "$at/$file"
done
holds 'the places in pciguest.pc' same 'prefix=/usr
libdir=${prefix}/lib/x86_64-linux-gnu
includedir=${prefix}/include' head -n 3 "$at/lib/x86_64-linux-gnu/pkgconfig/pciguest.pc"
help=$(awk '/^== / { inside = $0 == "== --help"; next } inside' tests/help.txt)
holds 'the installed program' same "$help" "$at/bin/pciguest" --help

# ---- the completion of words: those of the help, of which fish sorts the commands
commands=$(sed -n 's/^  \([a-z]*\)  .*/\1/p' <<< "$help")
after_help=${commands%$'\n'help}
completed() {
  PATH=$at/bin:$PATH bash -c 'source "$1"; shift; COMP_WORDS=("$@"); COMP_CWORD=$(($# - 1)); _pciguest "$1"; echo "${COMPREPLY[@]}"' - \
    "$at/share/bash-completion/completions/pciguest" "$@"
}
holds 'all words' same "$(echo $commands --help --version)" completed pciguest ''
holds 'words of help' same "$(echo $after_help)" completed pciguest help ''
holds 'a word of help' same 'run' completed pciguest help ru
holds 'a word' same 'list' completed pciguest l
board=$top/boards/chain.toml
holds 'a board' test "$(completed pciguest list "${board%ain.toml}")" = "$board"
holds 'a board for firmware' test "$(completed pciguest firmware "${board%ain.toml}")" = "$board"
holds 'a word of a check' same '--plain' completed pciguest check --p
holds 'a board after it' test "$(completed pciguest check --plain "${board%ain.toml}")" = "$board"
holds 'another word of a check' same '--all' completed pciguest check --plain -
holds 'a board after both' test "$(completed pciguest check --all --plain "${board%ain.toml}")" = "$board"
holds 'a word of a list' same '--json' completed pciguest list --j
holds 'a board after this' test "$(completed pciguest list --json "${board%ain.toml}")" = "$board"
holds 'a word of a run' same '--strict' completed pciguest run --s
holds 'a board after that' test "$(completed pciguest run --strict "${board%ain.toml}")" = "$board"
holds 'words of an audit' same '--json --strict' completed pciguest audit --
holds 'another word of an audit' same '--json' completed pciguest audit --strict -
holds 'a board after these' test "$(completed pciguest audit --strict --json "${board%ain.toml}")" = "$board"
holds 'no board of the demo' same '' completed pciguest demo "${board%ain.toml}"
# the same of zsh and fish, where they are there; zsh's own functions are stood in for
if command -v zsh > /dev/null; then
  in_zsh() {
    echo $(PATH=$at/bin:$PATH zsh -f -c 'file=$1; shift; words=("$@") CURRENT=$#; cd "'"$(dirname "$board")"'"
      _call_program() { eval "${@[2,-1]}"; }
      _describe() { local -a all=("${(@P)@[-1]}"); print -rl -- ${all%%:*}; }
      compadd() { print -rl -- "${@[2,-1]}"; }
      _files() { print -rl -- ${words[CURRENT]}*.toml(N); }
      source $file' - "$at/share/zsh/site-functions/_pciguest" "$@")
  }
  holds 'all words in zsh' same "$(echo $commands --help --version)" in_zsh pciguest ''
  holds 'words of help in zsh' same "$(echo $after_help)" in_zsh pciguest help ''
  holds 'a word of a list in zsh' same '--json chain.toml' in_zsh pciguest list ch
  holds 'a board in zsh' same 'chain.toml' in_zsh pciguest list --json ch
  holds 'a word of a check in zsh' same '--all --plain chain.toml' in_zsh pciguest check ch
  holds 'a board after it in zsh' same '--all chain.toml' in_zsh pciguest check --plain ch
  holds 'a board after both in zsh' same 'chain.toml' in_zsh pciguest check --all --plain ch
  holds 'a word of a run in zsh' same '--strict chain.toml' in_zsh pciguest run ch
  holds 'a board after that in zsh' same 'chain.toml' in_zsh pciguest run --strict ch
  holds 'words of an audit in zsh' same '--json --strict chain.toml' in_zsh pciguest audit ch
  holds 'another word of an audit in zsh' same '--strict chain.toml' in_zsh pciguest audit --json ch
  holds 'a board after these in zsh' same 'chain.toml' in_zsh pciguest audit --json --strict ch
  holds 'no board of the demo in zsh' same '' in_zsh pciguest demo ch
else
  skips "zsh's completion" 'no zsh' zsh
fi
if command -v fish > /dev/null; then
  in_fish() {
    echo $(cd "$(dirname "$board")" && HOME=$room PATH=$at/bin:$PATH fish --no-config -c 'source $argv[1]; complete -C "$argv[2]"' \
      "$at/share/fish/vendor_completions.d/pciguest.fish" "$1" | cut -f1)
  }
  holds 'all words in fish' same "$(echo $(sort <<< "$commands"))" in_fish 'pciguest '
  holds 'words of help in fish' same "$(echo $(sort <<< "$after_help"))" in_fish 'pciguest help '
  holds 'a board in fish' same 'chain.toml' in_fish 'pciguest list ch'
  holds 'a word of a list in fish' same '--json' in_fish 'pciguest list -'
  holds 'a board after this in fish' same 'chain.toml' in_fish 'pciguest list --json ch'
  holds 'words of a check in fish' same '--all --plain' in_fish 'pciguest check -'
  holds 'another word of a check in fish' same '--all' in_fish 'pciguest check --plain -'
  holds 'a board after it in fish' same 'chain.toml' in_fish 'pciguest check --plain ch'
  holds 'a board after both in fish' same 'chain.toml' in_fish 'pciguest check --all --plain ch'
  holds 'a word of a run in fish' same '--strict' in_fish 'pciguest run -'
  holds 'a board after that in fish' same 'chain.toml' in_fish 'pciguest run --strict ch'
  holds 'words of an audit in fish' same '--json --strict' in_fish 'pciguest audit -'
  holds 'another word of an audit in fish' same '--json' in_fish 'pciguest audit --strict -'
  holds 'a board after these in fish' same 'chain.toml' in_fish 'pciguest audit --strict --json ch'
  holds 'no board of the demo in fish' same '' in_fish 'pciguest demo ch'
else
  skips "fish's completion" 'no fish' fish
fi

# ---- the manual, where something that reads it is there
if command -v mandoc > /dev/null; then
  for page in man/*.[0-9]; do holds "$page" mandoc -T lint -W warning "$page"; done
elif command -v man > /dev/null; then
  is_clean() { [ -z "$(man --warnings -E UTF-8 -l -Tutf8 -Z "$1" 2>&1 > /dev/null | tee /dev/stderr)" ]; }
  for page in man/*.[0-9]; do holds "$page" is_clean "$page"; done
else
  skips 'the manual' 'no mandoc and no man' mandoc
fi

holds 'make uninstall' "${installing[@]}" uninstall
holds 'nothing is left but folders' test -z "$(find "$room/package" ! -type d)"

# ---- what the shared library gives and takes
if command -v nm > /dev/null && command -v readelf > /dev/null; then
  visible() { nm -D --defined-only library/libpciguest.so.0 | awk '{ print $3 }' | sort -u; }
  holds 'the calls of the header, and those that they stand over, alone are visible' test "$(declared)" = "$(visible)"
  needed() { readelf -dW library/libpciguest.so.0 | awk '/NEEDED|SONAME/ { print $NF }'; }
  holds 'it needs the C library alone' same $'[libc.so.6]\n[libpciguest.so.0]' needed
  no_text_changes() { ! readelf -dW library/libpciguest.so.0 | grep -q TEXTREL; }
  holds 'its code is position independent' no_text_changes
else
  skips 'what the shared library takes' 'no nm or no readelf' binutils
fi

# ---- the wheel, in an environment of its own: it has the library, a readme, and what tests of firmware take
if ! tools/wheel "$room/wheels" > "$room/told" 2>&1 && grep -q ' is missing\. ' "$room/told"; then
  skips 'the wheel' 'no pip, setuptools or wheel' 'python3-pip python3-wheel'
elif ! python3 -m venv "$room/own" > /dev/null 2>&1; then
  skips 'the wheel' 'no venv' python3-venv
else
  own() { env -i -C "$room" PATH="$room/own/bin:/usr/bin:/bin" "$@"; }
  holds 'the wheel is installed' own pip install --quiet --no-index "$room"/wheels/pciguest-*-py3-none-linux_x86_64.whl
  holds 'the device model over the wheel' same tests/library/device.stdout \
    own python "$top/examples/python/device.py" "$top/examples/device.toml"
  about='import importlib.metadata as m; d = m.metadata("pciguest"); print(d["Description-Content-Type"], d["Requires-Python"])'
  holds 'what the wheel says of itself' same 'text/markdown >=3.8' own python -c "$about"
  holds 'its readme' sh -c 'unzip -p "$1" "*/METADATA" | tail -n "$(wc -l < "$2")" | cmp - "$2"' - \
    "$room"/wheels/pciguest-*.whl library/python/README.md
  sed -n '/^```python$/,/^```$/p' library/python/README.md | grep -v '^```' > "$room/readme.py"
  holds 'the example of its readme' same 0x11234 own python readme.py
  if own python -c 'import tomllib' 2> /dev/null; then
    own pciguest-firmware-test --boards 6 -- true > "$room/tested" 2>&1
    holds 'firmware that does nothing, tested by the wheel' grep -q 'FAILED on' "$room/tested"
  else
    skips 'firmware tested by the wheel' 'no Python 3.11' python3
  fi
fi

# ---- the tarball, in an empty folder and without the kit
holds 'tools/dist' tools/dist "$room"
mkdir "$room/empty"
holds 'the tarball is unpacked' tar -C "$room/empty" -xzf "$room"/pciguest-*-x86_64-linux.tar.gz
cd "$room"/empty/pciguest-* || { echo "$passed passed, $((failed + 1)) failed"; exit 1; }
# as somebody without the kit runs a command: no rt, no toolchain of it, nothing of this repository
outside() { env -i PATH=/usr/local/bin:/usr/bin:/bin HOME="$room" PKG_CONFIG_PATH="$PWD/lib/pkgconfig" "$@"; }
holds 'the sums' outside sha256sum --quiet -c SHA256SUMS
all_but_sums() { find . -type f ! -name SHA256SUMS | sed 's|^\./||' | LC_ALL=C sort; }
holds 'a sum for each file' test "$(all_but_sums)" = "$(sed 's/^[^ ]*  //' SHA256SUMS)"
command -v rt > /dev/null && holds 'the line of the kit' grep -qxF "proved with $(rt version)" VERSION
holds 'the demo' same <("$top/pciguest" demo < "$top/boards/demo.script") outside bin/pciguest demo < boards/demo.script
"$top/pciguest" list "$top/boards/main.toml" > "$room/report"
holds 'a report' same "$room/report" outside bin/pciguest list boards/main.toml
if command -v python3 > /dev/null; then
  told='import ctypes; n = ctypes.CDLL("lib/libpciguest.so.0").pciguest_version(); print(f"{n // 10000}.{n // 100 % 100}.{n % 100}")'
  holds 'the version that the library tells' same "$(sed -n 's/^pciguest \([0-9.]*\).*/\1/p' VERSION)" outside "$(command -v python3)" -c "$told"
else
  skips 'the version that the library tells' 'no Python 3' python3
fi
if command -v pkg-config > /dev/null; then
  holds 'the version' same "$(sed -n 's/^pciguest //p' VERSION)" outside pkg-config --modversion pciguest
else
  skips 'the version of the tarball' 'no pkg-config' pkg-config
fi
holds 'what the README gives to each of its readers' "$top/tests/users.sh" "$PWD"
grep '^waited: ' "$room/told"
while read -r _ it; do skipped+=("$it"); done < <(grep '^skipped: ' "$room/told")

counted
