#!/usr/bin/env bash
# Checks what the documents say of files: definitions have headings, each link leads somewhere, each file that is named is
# there, so each edit and test that refuses a body, each edit of the tests can be made, and all code has the kit's layout.
# It needs the kit and no program. The last line is 'N passed, M failed'.
set -u
cd "$(dirname "$0")/.."
source tests/holds.sh
documents=(*.md docs/*.md docs/lessons/*.md {boards,examples,examples/{audit,kvm,qemu},page,tests}/README.md crates/*/README.md)
index=docs/DEFINITIONS.md
# none NAME CHECK..: the check finds nothing to write of
none() { holds "$1" finds_nothing "${@:2}"; }
finds_nothing() { ! "$@" | grep .; }

# ---- definitions: each file of specs/ has a heading, which is its entry in the index; of those of a crate of definitions
# it lists words. The page has a section for each such crate, whose words and chapters stand in those headings
specs() { find "${1:-crates}" -path '*/specs/*.antt' -not -path '*/out/*' -not -name Lib.antt | sort; }
heading() { awk '!/^--/ { exit } { print }' "$1"; }
bare_specs() {
  specs | while read -r file; do
    heading "$file" | grep -q '^-- [A-Z`]' || echo "$file: no heading"
    [[ $file != crates/model_* ]] || heading "$file" | grep -q '^--     ' || echo "$file: no words in its heading"
  done
}
# the crates of the page, and the text below the heading of one
listed() { sed -n 's/^## \(model_[a-z_]*\): .*/\1/p' "$index" | sort; }
section() { awk -v head="## $1: " '/^## / { inside = index($0, head) == 1; next } inside' "$index"; }
other_crates() { diff <(cd crates && ls -d model_*) <(listed); }
# of each crate the files that are named, each with the words after it
strange_words() {
  local crate file word words
  for crate in $(listed); do
    section "$crate" | sed -n 's/^- //p' | tr ';' '\n' | while read -r row; do
      file=crates/$crate/specs/$(sed -n 's/^`\([A-Za-z]*\.antt\)`: .*/\1/p' <<< "$row") words=${row#*: }
      [ -f "$file" ] || { echo "$crate: no file in '$row'"; continue; }
      for word in $(grep -o '`[^`]*`' <<< "$words" | tr -d '`'); do
        heading "$file" | grep -qE "(^|[ ,(])$word([ ,)]|\$)" || echo "$file: $word"
      done
    done
  done
}
strange_chapters() {
  local crate chapter
  for crate in $(listed); do
    specs "crates/$crate" | while read -r file; do heading "$file"; done > "$room/headings"
    for chapter in $(section "$crate" | sed -n 's/\(.*\) Begin with:$/\1/p' | grep -oE '(PCI|Bridge|Firmware)( (and )?[0-9]+(\.[0-9]+)*,?)+' | grep -oE '[0-9]+(\.[0-9]+)*'); do
      grep -qE "(^|[^0-9.])${chapter//./\\.}(\$|[^0-9.]|\\.( |\$))" "$room/headings" || echo "$crate: $chapter"
    done
  done
}
none 'definitions without a heading' bare_specs
none 'crates of definitions that the page lacks, or that are gone' other_crates
none 'words of the page that their file does not list' strange_words
none 'chapters of the page that no file names' strange_chapters

# ---- links, and the headings that they name
anchors() { grep '^#' "$1" | sed 's/^#* //' | tr '[:upper:]' '[:lower:]' | sed 's/[^a-z0-9 _-]//g; s/ /-/g'; }
links() { grep -o '](\([^)]*\))' "$1" | sed 's/^](\(.*\))$/\1/' | grep -v '^[a-z]*://'; }
# broken_links DOCUMENT..
broken_links() {
  for document in "$@"; do
    links "$document" | while read -r link; do
      target=$document
      [ "${link%%#*}" = '' ] || target=$(dirname "$document")/${link%%#*}
      [ -e "$target" ] || { echo "$document: $link"; continue; }
      [[ $link != *'#'* ]] || anchors "$target" | grep -qx -- "${link#*#}" || echo "$document: $link"
    done
  done
}
# the documents, boards and examples as a tarball has them
broken_in_tarball() {
  local file
  PREFIX='' DESTDIR='' tools/install --list | sed -n 's|^\([^ ]*\) /share/doc/pciguest/.*|\1|p' |
    while read -r file; do install -D -m 644 "$file" "$room/packed/$file"; done
  tools/examples "$room/packed"
  (cd "$room/packed" && shopt -s globstar && broken_links **/*.md)
}
none 'links that lead nowhere' broken_links "${documents[@]}"
none 'links of a tarball that lead nowhere' broken_in_tarball

# ---- each crate's code begins with its layer and its neighbours, as crates.txt has them
untold() {
  for file in crates/*/src/{lib,main}.rt; do ! [ -e "$file" ] || sed -n 3p "$file" | grep -q '^//! [A-Z`]' || echo "$file"; done
}
none 'crates that tell others (tests/layers.py --write)' tests/layers.py
none 'crates that do not say below that what they hold' untold

# ---- the list of documents has each
unlisted() {
  local file
  for file in docs/*.md docs/lessons/README.md; do
    [ "$file" = docs/README.md ] || grep -qF "](${file#docs/})" docs/README.md || echo "$file"
  done
}
none 'documents that docs/README.md lacks' unlisted

# ---- files that are named in the text, from the top; a star may stand in them
lost_files() {
  for document in "${documents[@]}"; do
    grep -oE '`(boards|crates|docs|tests|tools|examples|bench)/[A-Za-z0-9_./*-]*`' "$document" | tr -d '`' | sort -u |
      while read -r name; do
        [[ $name == */out* ]] || compgen -G "$name" > /dev/null || echo "$document: $name"
      done
  done
}
none 'files that are not there' lost_files

# ---- boards and scripts: each has a section of what is expected beside it, and a row in boards/README.md
unexpected() {
  local file name
  for file in boards/*.{toml,script} boards/refused/*.toml; do
    name=$(basename "$file")
    grep -qE "^== (check |[a-z_]+\.script over )?$name( |\$)" "$(dirname "$file")/expected.txt" || echo "$file: no section"
    [[ $file == boards/refused/* ]] || grep -qF "| \`$name\` |" boards/README.md || echo "$file: not in boards/README.md"
  done
}
none 'boards and scripts of which nothing is expected' unexpected

# ---- a type has a name of its own, but for the faults of set-up and of the program
shared=Fault
homonyms() {
  diff <(grep -roE --include='*.rt' '^pub (struct|enum|union|trait|type) \w+' crates/*/src | awk -F '[/: ]' '{ print $2, $NF }' | sort -u |
    cut -d ' ' -f 2 | sort | uniq -d) <(tr ' ' '\n' <<< "$shared")
}
none 'types of one name in two crates, or that are no longer' homonyms

# ---- a lemma stands once
none 'lemmas that stand twice' tests/doubles.py

# ---- what somebody asked for: each line has its file, a test has its words there where a run reaches them, each edit of the gate
# and each twin has its line; and no fewer lines are there than the list says
unnamed() { tests/named.py 2>&1; }
none 'what was asked for, and is not there' unnamed

# ---- laws and calls that documents name are those of the crates
none 'laws and calls that documents tell otherwise, or that are gone' tools/promises --check

# ---- examples in the headings of crates: their lines stand in a test, one after the other
strange_examples() {
  local tests; tests=$(sed 's/^ *//' crates/test_streams/src/examples.rt)
  for heading in crates/*/src/lib.rt; do
    example=$(awk '/^\/\/! ```/ { inside = !inside; next } inside { sub(/^\/\/! */, ""); print }' "$heading")
    [[ -z $example || $tests == *"$example"* ]] || echo "$heading"
  done
}
none 'examples in headings that no test runs' strange_examples

# ---- the page on a crate of one's own: its code stands in that crate
strange_code() {
  local code block
  code=$(find crates/example_presence -not -path '*/out/*' \( -name '*.rt' -o -name '*.antt' -o -name '*.edit' \) -exec cat {} +)
  awk '/^```$/ { if (inside) printf "%c", 0; inside = 0; next } /^```(rust|antt|edit)$/ { inside = 1; next } inside' docs/OWN_CRATE.md |
    while IFS= read -r -d '' block; do
      [[ $code == *"${block%$'\n'}"* ]] || echo "docs/OWN_CRATE.md: ${block%%$'\n'*}"
    done
}
none "code of a crate of one's own that is not there" strange_code

# ---- the manual: the calls of the header; its numbers are those of docs/errors.md, each of which has a message in the header
tools/bindings
other_numbers() {
  diff <(sed -n 's/^| \([0-9]\{3\}\) | `[^`]*` | [a-z,; ]* |.*/\1/p' docs/errors.md) \
    <(awk '/^};/ { inside = 0 } inside && /= [0-9]+,? +\/\* .+ \*\// { print $3 + 0 } /^enum pciguest_(status|told) {/ { inside = 1 }' library/pciguest.h | sort)
}
lacking_calls() {
  grep -o '^[A-Za-z][A-Za-z0-9_ *]*pciguest_[a-z_]*(' library/pciguest.h | sed 's/.*[ *]//; s/($//' | grep -v '_raw_' |
    while read -r call; do grep -q "^\.F[no] $call\( \|$\)" man/libpciguest.3 || echo "man/libpciguest.3: $call"; done
}
none 'numbers of docs/errors.md that the header lacks, or has alone' other_numbers
none 'calls that the manual lacks' lacking_calls

# ---- the kit: README names those with which the gate has passed, and, if the one that is here is among them, its logic
other_kit() {
  local kit logic; read -r kit _ logic <<< "$(rt version)"
  grep -qE '^Everything was proved with the following kits \(versions of the toolchain\), which share the logic `[0-9a-f]{16}`: (`rattle-kit-[0-9a-z]+`(, )?)+\.$' README.md || echo 'README.md: names no kit'
  ! grep -q "^Everything was proved with .*\`$kit\`" README.md || grep -q "^Everything was proved with .* the logic \`$logic\`" README.md || echo "README.md: $(rt version)"
}
! command -v rt > /dev/null || none 'the kits that the README names' other_kit

# ---- the crates of the kit that README names as trusted are those on which crates.txt has something stand
other_kit_crates() {
  diff <(sed '/^#/d; s/^[^:]*://' crates.txt | tr ' ' '\n' | grep -vE '^(|core|std_.*)$' | sort -u |
      comm -23 - <(sed 's/[: ].*//' crates.txt | sort)) \
    <(grep '^The Rattle toolchain' README.md | grep -o '`[a-z_]*`' | tr -d '`' | sort)
}
none 'crates of the kit that the README names' other_kit_crates

# ---- edits that the gate doesn't try, and mistakes of the examples: each text that one replaces stands once in its file
make -s -C examples/kvm other.toml
lost_edits() {
  local edit file line
  for edit in tests/edits/*/*.edit examples/*/mistakes/*.edit; do
    while IFS= read -r line; do
      case $edit:$line in
        *:'file: pciguest.h') file=library/pciguest.h ;;
        tests/*:'file: '*) file=crates/$(basename "$(dirname "$edit")")/${line#file: } ;;
        examples/*:'file: '*) file=${edit%/mistakes/*}/${line#file: } ;;
        *:'old: '*) [ "$(grep -oF -- "${line#old: }" "$file" | wc -l)" = 1 ] || echo "$edit: ${line#old: }" ;;
      esac
    done < "$edit"
  done
}
none 'edits whose text is not there once' lost_edits

# ---- layout: a crate is not proved by the gate before each of its files is as `rt fmt` writes it
unformatted() {
  local kit=$(dirname "$(realpath "$(command -v rt)")")
  find crates -path '*/out' -prune -o \( -name '*.rt' -o -name '*.antt' \) -print0 | xargs -0 "$kit/rattle" fmt --check 2>&1
}
none 'files that rt fmt writes otherwise' unformatted

counted
