# `make demo` builds and runs what there is to run; `make check` is all that the gate runs.
.PHONY: demo check host soak mutants fuzz faults bench bench-month install uninstall clean

demo:
	@scripts/demo

check:
	@scripts/check

# The program aspenbox, in target/host.
host:
	@echo "make host: building the library; each crate is proved first, which takes minutes once"
	@scripts/archives
	@echo "make host: building the program from host/ and the library"
	@scripts/host
	@echo "make host: done; the program is $(CURDIR)/target/host/aspenbox"

# Ten million calls of the archives compared with the second implementation's.
soak:
	@tests/soak 10000000

# The second implementation broken on purpose, to see that the comparison notices.
mutants:
	@tests/mutants/run

# A million inputs from a fuzzer for each call, compared with the second implementation.
fuzz:
	@tests/fuzz/run 1000000

# Faults and power cuts, more of them than `make check` tries.
faults:
	@scripts/archives
	@tests/faults/run long

# Speed, side by side with hand-written C in one run.
bench:
	@scripts/bench

# A month of backups through aspenbox, and through borg and restic where they are installed: some six minutes.
bench-month: host
	@bench/month/run

# The C side: header, archives, pkg-config file, aspenbox and the manual pages, below DESTDIR.
PREFIX = /usr/local
ARCHIVE_DIR = target/staticlib
into = DESTDIR='$(DESTDIR)' PREFIX='$(PREFIX)' ARCHIVE_DIR='$(ARCHIVE_DIR)'

install:
	@$(into) scripts/install put

uninstall:
	@$(into) scripts/install remove

clean:
	rm -rf target tests/target crates/*/out
