# Puts the program on a machine with its pages, and tries it:
#
#     make install PREFIX=$HOME/.local
#
# `install`, `check` and `test` take the program that is built, PROGRAM, where there is one. `make
# build` proves and builds it from what stands here, which takes the toolchain (`rt version`) and,
# the first time, an hour; the others do so where no program is there. `check` runs the examples,
# `test` the scripts of tests/ with small counts, in some minutes. `install` puts rescue-view and
# rescue-sweep there too where Python has the libraries that they take, and says what is missing
# where not; `test-tools` runs their tests, those in a browser too.

PREFIX = /usr/local
DESTDIR =
PROGRAM = crates/rescue/out/rescue
PYTHON = $(shell tools/python.sh)

BIN = $(DESTDIR)$(PREFIX)/bin
MAN = $(DESTDIR)$(PREFIX)/share/man/man1
DOC = $(DESTDIR)$(PREFIX)/share/doc/rescue
PAGES = README.md CHANGELOG.md LICENSE

.PHONY: program build install uninstall check test install-tools test-tools

program:
	@if [ -x $(PROGRAM) ]; then \
	    echo "takes $(PROGRAM) as it is built"; \
	elif command -v rt > /dev/null; then \
	    $(MAKE) build; \
	else \
	    echo "neither rt nor $(PROGRAM) is there" >&2; exit 1; \
	fi

# Proves and builds what has changed, and has the program list the functions of a guest.
build:
	cd crates/rescue && rt run -- list ../../examples/server/server > /dev/null

install: program install-tools
	install -d $(BIN) $(MAN) $(DOC)/docs/pictures
	install -m 755 $(PROGRAM) $(BIN)/rescue
	install -m 644 docs/rescue.1 $(MAN)
	install -m 644 $(PAGES) $(DOC)
	install -m 644 docs/*.md $(DOC)/docs
	install -m 644 docs/pictures/*.png $(DOC)/docs/pictures
	tar -c --exclude=build --exclude=source examples | tar -x --no-same-owner -C $(DOC)

install-tools:
	tools/install.sh "$(PYTHON)" "$(DESTDIR)" "$(PREFIX)"

uninstall:
	rm -rf $(BIN)/rescue $(MAN)/rescue.1 $(DOC)
	rm -rf $(BIN)/rescue-view $(BIN)/rescue-sweep $(DESTDIR)$(PREFIX)/share/rescue-tools

check: program
	examples/check.sh $(PROGRAM)

test: program
	tests/gate_guests.py
	tests/tables.py $(PROGRAM)
	tests/tries.py $(PROGRAM)
	tests/streams.py $(PROGRAM)
	tests/histories.py $(PROGRAM) --changes 10
	tests/threads.py $(PROGRAM) --runs 20
	tests/refusals.py $(PROGRAM) --every 97
	tests/campaign.py $(PROGRAM) --cases 1000

test-tools:
	@$(PYTHON) -c "import pytest, mypy" || \
	    { echo "missing: python3-pytest or mypy (docs/TOOLS.md)" >&2; exit 1; }
	cd tools && $(PYTHON) -m pytest
	cd tools && $(PYTHON) -m mypy src tests
	cd tools && if command -v ruff > /dev/null; then ruff check .; fi
