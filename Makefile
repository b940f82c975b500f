# Thin: each target is a command of the toolchain or a script.
.PHONY: demo test check edits archive program bench install uninstall dist clean

PREFIX ?= /usr/local
archive = target/staticlib/libdepot_c.a
program = target/bin/depot
sources = crates.txt $(shell find crates -name out -prune -o \( -name '*.rt' -o -name '*.antt' \) -print)

# The program on document 01's example: two commands, five steps of the loader, fourteen of worker 1.
demo: $(program)
	$(program) < crates/depot/stdin

# Everything that must hold; .ci/run calls it.
test:
	@tests/run

# The proofs alone, of what changed.
check:
	rt all check

# The must-fail edits that the gate leaves out for the sake of its time: some forty minutes.
edits:
	@tests/edits/run

# Speed beside plain Rust on the same bytes; the figures kept are in docs/PERFORMANCE.md.
bench: $(archive)
	DEPOT_LIB_DIR=$(CURDIR)/target/staticlib cargo run --offline --release --quiet --manifest-path bench/Cargo.toml

archive: $(archive)

program: $(program)

# Made again when a source changed; making one proves it.
$(archive): $(sources)
	cd crates/depot_c && rt lib --cpu x86-64
	@mkdir -p $(@D) && cp crates/depot_c/out/libdepot_c.a $@

$(program): $(sources)
	cd crates/depot && rt run < stdin
	@mkdir -p $(@D) && cp crates/depot/out/depot $@

# The C side below PREFIX: header, archive and pkg-config file. DESTDIR, if given, goes before it.
install: $(archive)
	@PREFIX='$(PREFIX)' DESTDIR='$(DESTDIR)' tools/install

uninstall:
	@PREFIX='$(PREFIX)' DESTDIR='$(DESTDIR)' tools/install -r

# The C side as one tar file, the same bytes on every build.
dist: $(archive)
	@tools/dist

clean:
	rm -rf target crates/*/out tests/second/target bench/target
