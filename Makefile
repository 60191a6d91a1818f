# make test: all tests, ending in rt ci's 'N passed, 0 failed'.
# make lib: build/libkinphlor.a and build/kinphlor.h.
# make demo: lane records sealed, laid out byte by byte and opened.
# make bench: times beside OpenSSL's and libgcrypt's, stack, instructions; writes docs/BENCHMARKS.md and its picture.
# make docs: docs/WRONG-PROGRAMS.md, from the first lines of the edits.
# make install: libkinphlor.a, kinphlor.h and kinphlor.pc below PREFIX; DESTDIR is put before it.
# Each first installs what it needs and the machine lacks, or says in one line what that is: host/setup.sh.
SHELL := /bin/bash
.SHELLFLAGS := -eu -o pipefail -c
.DEFAULT_GOAL := test
SETUPS := setup-test setup-lib setup-demo setup-bench
COMMANDS := test lib demo bench install install-files
.PHONY: archive $(COMMANDS) $(SETUPS)
.SILENT: archive $(COMMANDS) $(SETUPS)

PREFIX ?= /usr/local
export PREFIX DESTDIR
VERSION := 0.1.0

# Programs over the archive, and host-test, their tests.
include host/Makefile

$(SETUPS): setup-%:
	host/setup.sh $*

# No stamp is trusted after rt ci. It passes with edits that are bad, and this does not.
test: setup-test
	mkdir -p build
	rt ci 2>&1 | tee build/ci.log
	if grep '^rt: ok.*, [1-9][0-9]* bad' build/ci.log; then \
	    echo 'test: FAILED: an edit in must-fail/ that is bad shows nothing' >&2; exit 1; fi
	host/archive.sh kinphlor anew
	host/archive.sh probe anew
	$(MAKE) --no-print-directory host-test
	tail -n 1 build/ci.log

archive: setup-lib
	host/archive.sh kinphlor

lib: setup-lib
	rm -f build/libkinphlor.a build/kinphlor.h
	host/archive.sh kinphlor
	cp target/staticlib/libkinphlor.a include/kinphlor.h build/
	echo 'build has libkinphlor.a and kinphlor.h'

demo: setup-demo archive
	$(call host_cc,demo,$(HOST_DEMO))
	$(HOST_OUT)/demo

bench: setup-bench archive
	host/archive.sh probe
	$(MAKE) --no-print-directory -s host-stack host-bench
	$(HOST_OUT)/bench

# The prefix is looked at first: proving takes minutes.
install:
	host/install.sh check
	$(MAKE) --no-print-directory archive
	$(MAKE) --no-print-directory install-files

# The files alone, from an archive that is there.
install-files: $(KINPHLOR_LIB)
	host/install.sh $(VERSION) $(KINPHLOR_LIB)
