# Where the examples find the library: INCLUDE is the directory of pciguest.h, and LIBRARY that of libpciguest.a. `make try`
# leaves an unproved library, which is used only if there is no proved one.
INCLUDE := $(firstword $(wildcard ../../library ../../include))
LIBRARY := $(patsubst %/libpciguest.a,%,$(firstword $(wildcard $(addsuffix /libpciguest.a,../../library ../../lib ../../library/unproved)) $(INCLUDE)))
$(if $(filter %/unproved,$(LIBRARY)),$(warning this library is not proved: $(LIBRARY). `make library` proves it))

$(LIBRARY)/libpciguest.a:
	@echo 'There is no $@. At the top of the repository, `make try` compiles it without proofs, and `make library` proves it.'; exit 1

# (the first rule of the Makefile that includes this file remains the one that a bare `make` follows)
.DEFAULT_GOAL :=
