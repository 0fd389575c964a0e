# The library for C and C++, the examples and their tests. What is proved and tried in all: .ci/run.
#   make lib        proves and builds the library, where it is not there or a source is newer: target/lib/libftd.a (needs the Rattle kit, rt)
#   make example    builds the examples with it: target/example/first, driver, frames, standby
#   make tools      builds the box on real lines with it, a serving and a receiving end: target/tools/ftdbox, ftdexchange, ftdseat;
#                   and the decoder of captures: target/tools/ftddump
#   make demo       shows the box on real lines: an exchange, two boxes in a row and three seats, lines cut and programs killed
#   make check-c    builds the header's test and the examples with each compiler that is there, and runs them
# LIB=.. names another library, which is then taken as it is.

LIB = target/lib/libftd.a
# The crates that the library is made of.
CRATES = ftd flow relay calendar book fix exports
CFLAGS = -std=c99 -O2 -Wall -Wextra -pedantic

.PHONY: lib example tools demo check-c

lib: target/lib/libftd.a

# Nothing is proved again that is proved: the library is made anew only where a file of its crates is newer than it.
target/lib/libftd.a: crates.txt $(shell find $(addprefix crates/,$(CRATES)) -name out -prune -o \( -name '*.rt' -o -name '*.antt' \) -print)
	cd crates/exports && rt lib
	mkdir -p target/lib
	cp crates/exports/out/libexports.a $@

example: $(LIB)
	mkdir -p target/example
	$(CC) $(CFLAGS) -Iinclude examples/first.c $(LIB) -o target/example/first
	$(CC) $(CFLAGS) -Iinclude examples/driver.c $(LIB) -o target/example/driver
	$(CC) $(CFLAGS) -Iinclude examples/frames.c $(LIB) -o target/example/frames
	$(CC) $(CFLAGS) -Iinclude examples/standby.c $(LIB) -o target/example/standby

tools: $(LIB)
	mkdir -p target/tools
	for tool in ftdbox ftdexchange ftdseat; do \
	    $(CC) $(CFLAGS) -D_POSIX_C_SOURCE=200809L tools/$$tool.c tools/lines.c $(LIB) -o target/tools/$$tool || exit 1; \
	done
	$(CC) $(CFLAGS) -D_POSIX_C_SOURCE=200809L tools/ftddump.c $(LIB) -o target/tools/ftddump

demo: tools
	python3 tests/box/demo.py

check-c: $(LIB)
	sh tests/c/run.sh $(LIB)
