# `make` lists the targets. A comment `##` after a target is its line there, and `###` one in the second list.
SHELL := bash
.SHELLFLAGS := -eu -o pipefail -c
PROVE := tools/prove

# where `make install` puts the program and the library
PREFIX := /usr/local
DESTDIR :=
LIBDIR := lib
INSTALL := PREFIX='$(PREFIX)' DESTDIR='$(DESTDIR)' LIBDIR='$(LIBDIR)' tools/install

# the board of `make list` and `make lspci`, unless they are given one
BOARD := boards/main.toml

.PHONY: help demo list lspci has-lspci has-qemu has-kvm has-firmware has-kit has-peers gate test edits build library install \
  uninstall bindings dist wheel cargo deb deb-test bench bench-peers hostile fuzz qemu kvm firmware kit corpus peers page browse site outside try try-page quick clean

LISTED = awk -F ':[^\#]*$(1) ' '/^[a-z-]+:[^\#]*$(1) / { printf "  make %-12s %s\n", $$1, $$2 }' Makefile
help:
	@echo 'To use pciguest:'; $(call LISTED,\#\#); echo; echo 'To change and test it (CONTRIBUTING.md, tests/README.md):'; $(call LISTED,\#\#\#)

try: ## compiles ./pciguest-unproved and library/unproved in two minutes, without proofs, and runs the demo
	@echo 'This proves nothing: it only compiles the program and the library. `make build` and `make library` prove them first.'
	@if tools/unproved; then ./pciguest-unproved demo < boards/demo.script; \
	  echo; echo 'Not proved: ./pciguest-unproved and library/unproved. So that compilers, cargo and Python find the library: . ./env.sh'; \
	else echo 'With this version of the toolchain, only the demo can be compiled without proofs:'; \
	  cd crates/pciguest && rt try -- demo < ../../boards/demo.script; fi

demo: build ## does the same as make build, and runs a script on the demo board
	@echo; echo '$$ cat boards/demo.script'; cat boards/demo.script
	@echo; echo '$$ ./pciguest demo < boards/demo.script'; ./pciguest demo < boards/demo.script

list: pciguest ## sets up a board and lists what is on it: make list BOARD=boards/main.toml
	@./pciguest list $(BOARD)

lspci: has-lspci pciguest ## sets up a board and shows it with the real lspci: make lspci BOARD=.. OPTIONS=-tv
	@tools/lspci ./pciguest $(BOARD) $(OPTIONS)

has-lspci:
	@command -v lspci > /dev/null || { echo 'lspci is missing. On Debian: apt-get install pciutils'; exit 1; }

pciguest:
	@$(MAKE) --no-print-directory build

# First come the tests that need no proof. Then everything that users get is proved from scratch, and the other tests run. The
# mutants of each crate are tried once the crate is proved. Parts between brackets run in parallel. At the end, it prints how long
# each part took.
FIRST := [ page/tests/unit tests/documents.sh tests/kit.sh tests/tools.sh tests/bench.sh ]
PROGRAM := 'tests/try.sh test_streams' tests/program.sh tests/commands.sh \
  'python3 tests/hostile/growths.py crates/pciguest/out/pciguest --quick --arrays crates/test_arrays/out/test_arrays' \
  'python3 tests/fuzz/mistakes.py crates/pciguest/out/pciguest --files 200'
EDITS := 'tests/edits.py --gate --behind'
gate: ### does what make test does, except for the library
	@tests/parts.py $(FIRST) [ "tests/parts.py '$(PROVE) --gate' [ $(PROGRAM) ]" $(EDITS) ]

# This also tests the library as a user links it, installed files and packages, and boards and files at every limit.
PLACE := install -m 755 crates/pciguest/out/pciguest pciguest
USERS := tests/library.sh 'tests/commands.sh --tried' tests/install.sh 'tests/schema.py ./pciguest' 'tests/limits/limits.py ./pciguest'
test: ### proves the program and the library from scratch, checks that mutants are refused, and runs the tests
	@tests/parts.py $(FIRST) [ "tests/parts.py '$(PROVE) --gate --library' '$(PLACE)' [ $(PROGRAM) $(USERS) ]" $(EDITS) ]

# It skips the tests whose packages aren't installed, and names the packages.
outside: pciguest library/libpciguest.a ### runs the tests that need other programs or much time
	@tests/parts.py --outside hostile fuzz firmware kit peers qemu kvm page browse site bench

# A large crate takes minutes.
CRATES :=
edits: ### checks that more mutants are refused: make edits CRATES='monitor headers'
	@tests/edits.py $(CRATES)

# It proves only the crates that the program depends on.
build: ## proves the program and builds ./pciguest
	@$(PROVE) pciguest
	@install -m 755 crates/pciguest/out/pciguest pciguest
	@echo 'pciguest: proved and built'

library: ## proves the library for C and builds library/libpciguest.a and .so.0
	@$(PROVE) --library

# Every target and tool that needs these files makes them first.
bindings: ### generates the calls in C, the declarations in Rust and Python, and the manuals, from library/pciguest.h
	@tools/bindings

# The program and the library must have been built.
install: ## installs the program, the library, the examples, the documents and the manuals: make install PREFIX=/usr
	@$(INSTALL)

uninstall: ## removes what make install installed
	@$(INSTALL) --remove

# It requires Python 3.11. The tarball also contains the transcripts and the page.
dist: build library corpus ## builds the tarball, pciguest-VERSION-x86_64-linux.tar.gz
	@$(MAKE) --no-print-directory page
	@tools/dist

# It requires pip, setuptools and wheel.
wheel: library ## builds a Python wheel that contains the library, in packages
	@tools/wheel packages

cargo: library ## packages the Rust crates with the library, in packages
	@tools/cargo packages

# They require dpkg-deb; the test also requires lintian, debootstrap and root.
deb: build library ## builds the Debian packages, in packages
	@tools/deb packages

deb-test: deb ### installs, uses and removes the Debian packages in a separate root
	@tests/deb.sh packages

# The boards have 1, 4, 1003 and 1024 functions. If valgrind is installed, instructions are counted, too. bench/compare OLD NEW
# compares two outputs.
bench: build ### measures accesses, events, script lines, calls from C, images and reports
	@bench/boards crates/bench_accesses/out/boards
	@$(PROVE) bench_accesses
	@bench/run crates/bench_accesses/out/bench_accesses crates/bench_accesses/out/boards
	@echo; bench/lines crates/pciguest/out/pciguest crates/bench_accesses/out/boards
	@echo; bench/audits crates/pciguest/out/pciguest crates/bench_accesses/out/boards
	@echo; $(PROVE) --library
	@$(CC) -O2 -Ilibrary -o crates/pciguest_c/out/calls bench/calls.c library/libpciguest.a
	@bench/calls crates/pciguest_c/out/calls boards/main.toml
	@echo; $(CC) -O2 -Ilibrary -o crates/pciguest_c/out/images bench/images.c library/libpciguest.a
	@bench/images crates/pciguest_c/out/images crates/bench_accesses/out/boards

# It requires Debian's qemu-system-x86.
bench-peers: pciguest ### measures a configuration read here and in QEMU
	@bench/peers ./pciguest

# It requires cc, and takes some minutes.
hostile: bindings pciguest library/libpciguest.a ### runs the program and the library with failing memory and streams, and bad files
	@$(PROVE) test_arrays
	@python3 tests/hostile/growths.py ./pciguest --arrays crates/test_arrays/out/test_arrays
	@for part in streams surroundings sizes; do python3 tests/hostile/$$part.py ./pciguest; done
	@python3 tests/hostile/images.py

# The reference models answer tests/rows and about a million random lines. Then they check board files with mistakes, the reports on
# random register states, and ten thousand guests and a thousand machines that are saved and loaded. SEED selects other boards.
SEED := 1
fuzz: bindings pciguest library/libpciguest.so.0 ### compares random boards, lines and images with the reference models: make fuzz SEED=2
	@$(PROVE) test_lone_guest
	@tests/cases.py ./pciguest crates/test_lone_guest/out/test_lone_guest
	@python3 tests/fuzz/fuzz.py ./pciguest --lone crates/test_lone_guest/out/test_lone_guest --boards 850 --seed $(SEED)
	@python3 tests/fuzz/mistakes.py ./pciguest --files 3000 --seed $(SEED)
	@python3 tests/fuzz/audit.py ./pciguest --states 2000 --seed $(SEED)
	@python3 tests/fuzz/ready.py ./pciguest --states 2000 --seed $(SEED)
	@python3 tests/fuzz/why.py ./pciguest --states 2000 --seed $(SEED)
	@python3 tests/fuzz/images.py --guests 10000 --lines 40 --changed 4 --seed $(SEED)
	@python3 tests/fuzz/machines.py --machines 1000 --lines 40 --changed 4 --seed $(SEED)

# It requires QEMU 7.2 and other Debian packages; if any are missing, it names them. So do the targets below.
qemu: has-qemu pciguest library/libpciguest.a ### tests examples/qemu: Linux in two QEMU machines on one board
	@$(MAKE) --no-print-directory -C examples/qemu check PROGRAM=$(CURDIR)/pciguest

has-qemu:
	@examples/qemu/needs

# It requires /dev/kvm, or QEMU.
kvm: has-kvm library/libpciguest.a ### tests examples/kvm: Linux in two KVM machines on one board, with virtio disks and network cards
	@$(MAKE) --no-print-directory -C examples/kvm check

has-kvm:
	@examples/qemu/needs kvm

# With a ROM, it runs only this ROM: make firmware ROM=my.rom OPTIONS=.. (OPTIONS=--help lists the options.)
ifdef ROM
firmware: has-firmware bindings library/libpciguest.so.0
	@PYTHONPATH=library/python /usr/bin/python3 -B -m pciguest.rom_test $(ROM) $(OPTIONS)
else
firmware: has-firmware bindings pciguest library/libpciguest.so.0 ### boots SeaBIOS and U-Boot on boards, and compares with QEMU
	@tests/firmware/recorded.py
	@tests/firmware/firmware.py ./pciguest
	@tests/firmware/edits.py ./pciguest
	@tests/firmware/broken.py ./pciguest
	@tests/firmware/grub.py
endif

has-firmware:
	@tests/needs firmware

kit: has-kit bindings library/libpciguest.so.0 ### tests pciguest-firmware-test with examples/firmware and its mistakes
	@/usr/bin/python3 -B -m unittest discover -s tests/kit
	@/usr/bin/python3 -B -m pytest -q -p no:cacheprovider tests/kit/strategies_test.py
	@tests/kit/mistakes.py

# It also checks that the transcripts detect lost writes.
corpus: bindings library/libpciguest.so.0 ### writes transcripts for testing other virtual PCI buses, in corpus
	@tests/kit/corpus.py corpus

# This takes a quarter of an hour.
peers: has-peers bindings library/libpciguest.so.0 ### compares replies with QEMU's devices, and audits what EDK2 and Linux leave
	@tests/kit/peers.py
	@tests/kit/edk2.py
	@tests/kit/edk2.py --tight --trees 5
	@tests/kit/linux.py

has-kit:
	@tests/needs kit

has-peers:
	@tests/needs peers

library/libpciguest.a library/libpciguest.so.0:
	@$(MAKE) --no-print-directory library

# Node or Chromium compares the page's answers with those of the program and the library. If neither is installed, it says so.
PROVED := $(addprefix pciguest_raw_,new free guest guest_count guest_name count function slot region why_in report_in check \
  run_line explain_line host_read save load give take board_new board_free board_anew board_guests board_write board_run_line board_survey \
  board_why_json board_function)
# what JavaScript calls: the proved calls, and those in library/machines.c, which are built on them
EXPORTS := $(PROVED) pciguest_raw_save_all pciguest_raw_load_all
page: pciguest ## builds the page, pciguest.html, which runs the proved code in a browser
	@$(MAKE) --no-print-directory library
	@$(MAKE) --no-print-directory page/out/pciguest.wasm
	@page/tests/compare page/out/pciguest.wasm ./pciguest library/libpciguest.so.0
	@page/build/assemble page/out/pciguest.wasm pciguest.html
	@echo 'pciguest.html: open it in a browser'

# The module is made from the LLVM module that the build of the library leaves.
page/out/pciguest.wasm: crates/pciguest_c/out/libpciguest_c.a page/build/wasm page/build/heap.c library/machines.c Makefile
	@mkdir -p page/out
	@page/build/wasm crates/pciguest_c/out/pciguest_c.bc $@ $(EXPORTS)

try-page: ### compiles the page without proofs, as page/out/unproved.html
	@echo 'This run proves nothing: it only compiles the library for the page. `make page` proves it first.'
	@mkdir -p page/out
	@tools/unproved page/out/unproved.ll $(PROVED)
	@page/build/wasm page/out/unproved.ll page/out/unproved.wasm $(EXPORTS)
	@page/build/assemble page/out/unproved.wasm page/out/unproved.html 'Nothing here is proved: this page was built by make try-page.'
	@echo 'page/out/unproved.html: open it in a browser'

# It opens the page, and the one in each tarball here, without a network, and then uses it as a reader does. Screenshots go to page/out.
browse: page ### tests the page in headless Chromium and, if installed, in Firefox
	@page/tests/contrast
	@page/tests/offline pciguest.html $(wildcard pciguest-*-x86_64-linux.tar.gz)
	@page/tests/browse pciguest.html page/out

# It leaves out what it can't make because a package is missing, and names the package.
site: ### builds a web site with the page, the documents, the manuals and the library references, in site
	@made=0; tools/site site || made=$$?; [ ! -d site ] || tests/site.py site; exit $$made

ONLY :=
quick: ### compiles the program without proofs, and compares its output with the expected output: make quick ONLY=moves.rows
	@tests/quick.py $(ONLY)

clean: ## removes everything that was built
	rm -f $(shell tools/bindings --list)
	rm -rf crates/*/out page/out library/rust/target corpus pciguest pciguest.html library/libpciguest.a library/libpciguest.so.0
	rm -rf site packages pciguest-*-x86_64-linux.tar.gz pciguest-unproved library/unproved
	@for example in c driver qemu kvm; do $(MAKE) --no-print-directory -C examples/$$example clean; done
