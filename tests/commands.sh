#!/usr/bin/env bash
# Runs the commands in the documents, and compares their output with what the documents say.
#     tests/commands.sh [--tried] [PROGRAM [FOLDER]]
# The documents are those of the repository or, with a FOLDER, those of users in the directory in which a tarball was unpacked.
# With --tried, the library is library/unproved; without a PROGRAM, both are compiled as by `make try`. Otherwise, the library is
# the proved one; without it, the commands that need it are skipped.
#
# The commands run in a copy of the directories that they use, after env.sh was sourced. The program is there as ./pciguest.
# - In a block, the lines after '$ COMMAND' are its output, up to the next such line. If the last one is `...`, more may follow.
# - `COMMAND` in the text must end with status 0. In '`COMMAND` prints `OUTPUT`', the output must be exactly this.
# - A line `make -C DIRECTORY ..` in a block must end with status 0. Of any other `make`, only the target has to exist.
# - A block under 'Save this as `NAME`' is saved to this file.
# - Each line of a block of Rust or C is in the file that the text above it names last.
# In the manual, a literal display is a block, and the program is called by its name only. The last line is 'N passed, M failed'.
set -u
here=$(realpath "$(dirname "$0")") tried=''
if [ "${1:-}" = --tried ]; then
  tried=yes; shift
  if [ $# = 0 ]; then "$here/../tools/unproved" || exit 1; set -- "$here/../pciguest-unproved"; fi
fi
program=$(readlink -f "${1:-$here/../crates/pciguest/out/pciguest}")
cd "${2:-$here/..}" || exit 1
source "$here/holds.sh"
[ -x "$program" ] || { echo "no program at $program: make build"; echo '0 passed, 1 failed'; exit 1; }
documents=(README.md docs/{board-file,script-language,errors,json,image-format}.md docs/lessons/*.md examples/{,audit/}README.md)
[ $# -ge 2 ] || documents+=(boards/README.md docs/ARCHITECTURE.md docs/PROOFS.md docs/RESULTS.md man/pciguest.1.in)
of_library=(docs/library-{c,python,rust}.md docs/{vmm-integration,firmware-testing,driver-testing}.md examples/{kvm,qemu}/README.md)

# what the commands use: copies of what they build in or look for the library in, and links to the rest
ln -s "$program" "$room/pciguest"
for name in README.md boards crates docs tools bin include lib share; do [ ! -e "$top/$name" ] || ln -s "$top/$name" "$room/$name"; done
mkdir -p "$room/examples"
cp env.sh "$room"
tar -C "$top" -c --exclude={target,out,unproved,libpciguest.*} $([ ! -e library ] || echo library) examples | tar -C "$room" -x
if [ -n "$tried" ]; then cp -r library/unproved "$room/library"
elif [ -e library/libpciguest.a ]; then cp library/libpciguest.{a,so.0} "$room/library"; fi
if [ $# -ge 2 ]; then has_library=yes
elif ls "$room"/library{,/unproved}/libpciguest.a 2> /dev/null | grep -q .; then has_library=yes documents+=("${of_library[@]}")
else has_library='' && skips 'commands that use the library' 'no library/libpciguest.a: make library'; fi

# what the commands in a text begin with, and which of them aren't run: those that need a file or program of the reader's, proofs,
# a browser or a tarball, and those that must fail
commands='(\./pciguest|PYTHONPATH=[^ ]+ python3|python3|cc|cargo|make -C|library/python/pciguest-firmware-test) '
not_run='my\.rom|mine|BOARD|corpus|--open|http\.server|package|pkg-config|-Iinclude|boards/refused'
ls -d /usr/share/cargo/registry/vm-{memory,superio}-* > /dev/null 2>&1 || not_run+='|examples/rust vmm'
command -v cargo > /dev/null || not_run+='|examples/rust'
for tool in cc cargo make python3; do command -v $tool > /dev/null || { not_run+="|^$tool "; skips "commands with $tool" 'it is missing'; }; done

# tell NAME WANTED CAME
tell() { holds "$1" diff <(echo "$2") <(echo "$3"); }

# the targets that `make` lists
listed() { make -sC "$top" | sed -n 's/^  make \([a-z-]*\) .*/\1/p'; }

# typed COMMAND: does what a user does who types it
typed() (cd "$room" && . ./env.sh 2> /dev/null && CARGO_NET_OFFLINE=true PATH=$room:$PATH timeout 1200 bash -c "$1" < /dev/null)

# run DOCUMENT COMMAND WANTED
run() {
  local came wanted=$3
  [[ $2 != 'make '[a-z]* ]] || return 0
  [ -n "$has_library" ] || [[ ! $2 =~ (python3|cc)' ' ]] || return 0
  came=$(typed "$2" 2>&1 | grep -vi 'this library is not proved')
  if [ "$(tail -n 1 <<< "$wanted")" = ... ]; then
    wanted=$(head -n -1 <<< "$wanted")
    came=$(head -n "$(wc -l <<< "$wanted")" <<< "$came")
  fi
  tell "$1: $2" "$wanted" "$came"
}

# block DOCUMENT: a block of commands on standard input
block() {
  local line command='' wanted=''
  while IFS= read -r line; do
    if [[ $line == '$ '* ]]; then
      [ -z "$command" ] || run "$1" "$command" "$wanted"
      command=${line#'$ '} wanted=''
    elif [[ $line == 'make -C '* && -n $has_library ]]; then
      holds "$1: $line" typed "$line"
    elif [ -n "$command" ]; then
      wanted+=${wanted:+$'\n'}$line
    fi
  done
  [ -z "$command" ] || run "$1" "$command" "$wanted"
}

# the text of a document; of the manual, as a document has it
text_of() {
  case $1 in
    *.md) cat "$1" ;;
    *) sed -e '/^Save this as$/ { N; s/\n\.Pa \([^ ]*\) :$/ `\1`:/; }' -e 's/^\.\(Bd -literal.*\|Ed\)$/```/' -e 's/\\-/-/g; s/\\e/\\/g' "$1" ;;
  esac
}

# code without what stands before it on its lines, and without empty lines
bare() { sed 's/^ *//; /^$/d'; }

# sentence DOCUMENT LINE: runs the commands in a line of text
sentence() {
  local rest=$2 command wanted
  while [[ $rest =~ '`'([^'`']+)'`'(' prints `'([^'`']+)'`')? ]]; do
    command=${BASH_REMATCH[1]} wanted=${BASH_REMATCH[3]:-} rest=${rest#*"${BASH_REMATCH[0]}"}
    if ! [[ $command =~ ^$commands ]] || [[ $command =~ $not_run ]]; then continue; fi
    [ -n "$has_library" ] || [[ $command == ./pciguest* ]] || continue
    [ ! -d share/pciguest ] || command=${command//library\/rust/share/pciguest/rust}
    if [ -n "$wanted" ]; then tell "$1: $command" "$wanted" "$(typed "$command" 2> /dev/null)"
    else holds "$1: $command" typed "$command"; fi
  done
}

# document NAME: goes through a document, block by block
document() {
  local line kind='' text='' inside='' save='' file=''
  while IFS= read -r line; do
    if [[ $line == '```'* && -z $inside ]]; then
      inside=yes kind=${line#'```'} text=''
    elif [[ $line == '```' ]]; then
      inside=''
      if [ -n "$save" ]; then mkdir -p "$room/$(dirname "$save")" && printf '%s' "$text" > "$room/$save"; save=''
      elif [[ " ${of_library[*]} " == *" $1 "* && ( $kind = c || $kind = rust ) ]]; then : # tests/library.sh compiles these
      elif [ "$kind" = rust ] || [ "$kind" = c ]; then
        text=$(bare <<< "$text")
        tell "$1: the lines of $file" "$text" "$(bare < "$top/$file" | grep -xF "$text")"
      else block "$1" < <(printf '%s' "$text"); fi
    elif [ -n "$inside" ]; then
      text+=$line$'\n'
    else
      sentence "$1" "$line"
      [[ $line =~ 'Save this as `'([a-z_./]+)'`' ]] && save=${BASH_REMATCH[1]}
      [[ $line =~ .*'`'([a-z_/]+\.(rt|c))'`' ]] && file=${BASH_REMATCH[1]}
    fi
  done < <(text_of "$top/$1")
}

for name in "${documents[@]}"; do document "$name"; done
[ ! -e Makefile ] || for target in $(grep -ohE '(^|`|\$ )make [a-z]+' README.md CONTRIBUTING.md docs/*.md {boards,examples}/README.md | sed 's/.*make //' | sort -u); do
  tell "make $target" "$target" "$(listed | grep -x "$target")"
done

# what comes without env.sh: a library that isn't proved is used, and this is said; without a library, the error says what to do
if [ -n "$tried" ]; then
  alone() { (cd "$room" && env -u PCIGUEST_LIBRARY_DIR PYTHONPATH=library/python "$@" 2>&1); }
  says() { alone "${@:2}" | grep -q "$1"; }
  loads=(python3 -c 'import pciguest; pciguest.version()')
  for words in "${loads[*]@Q}" 'make -C examples/c' 'make -C examples/rust'; do
    [[ $words != *rust ]] || command -v cargo > /dev/null || continue
    alone rm -rf examples/c/device library/rust/target
    holds "not proved: $words" says 'this library is not proved: .*`make library`' bash -c "$words"
  done
  alone rm -rf library/unproved examples/c/device library/rust/target
  for words in "${loads[*]@Q}" 'make -C examples/c' 'make -C examples/kvm' 'make -C examples/qemu'; do
    holds "no library: $words" says '`make try` compiles .* `make library`' bash -c "$words"
  done
fi

# what the commands leave in a clone
if [ -d .git ]; then
  for left in "$room"/*; do
    name=${left##*/}
    [ -e "$name" ] || [[ $name =~ ^(told|out|bin|include|lib|share)$ ]] || holds "git ignores $name" git check-ignore -q "$name"
  done
fi

[ "$passed" -gt 0 ] || holds 'a document was read' false
counted
