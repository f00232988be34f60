# Installs the program, the tool, the manuals, the documents and the completions: `make install` takes the program that ./run would start, builds it
# where it does not stand, and says where it is not proved; PROGRAM= names another. `make deb` makes a package of the same.
PREFIX ?= /usr/local
DESTDIR ?=
PROGRAM ?=
PYTHON ?= python3
# the first line of the tool, where it is not the Python of the PATH
INTERPRETER ?=
UNITS = hugetlbd.service hugetlbd-exporter.service

bin = $(DESTDIR)$(PREFIX)/bin
share = $(DESTDIR)$(PREFIX)/share
units = $(DESTDIR)$(PREFIX)/lib/systemd/system
# where this Python looks for modules below PREFIX
MODULES ?= $(shell $(PYTHON) packaging/modules $(PREFIX))
modules = $(DESTDIR)$(MODULES)

.PHONY: all check install uninstall deb
all:
	./run --version

check:
	.ci/run

install:
	packaging/make-manual --check
	PROGRAM="$(PROGRAM)" packaging/install-program "$(bin)/hugetlbd"
	proved=$$(packaging/is-proved "$(bin)/hugetlbd") && \
	    PROVED=$$proved INTERPRETER="$(INTERPRETER)" $(PYTHON) packaging/make-tool "$(bin)/hugetlbctl" && \
	    $(PYTHON) packaging/install-documents "$(share)" $$proved
	install -D -m 644 tools/hugetlb_session.py "$(modules)/hugetlb_session.py"
	install -D -m 644 packaging/hugetlbd.bash "$(share)/bash-completion/completions/hugetlbd"
	ln -sf hugetlbd "$(share)/bash-completion/completions/hugetlbctl"
	install -D -m 644 packaging/_hugetlbd "$(share)/zsh/site-functions/_hugetlbd"
	install -d "$(units)" && for unit in $(UNITS); do \
	    sed 's|@PREFIX@|$(PREFIX)|' "packaging/$$unit.in" > "$(units)/$$unit" && chmod 644 "$(units)/$$unit" || exit 1; done

uninstall:
	rm -f "$(bin)/hugetlbd" "$(bin)/hugetlbctl" "$(share)/man/man1/hugetlbd.1" "$(share)/man/man1/hugetlbctl.1" $(UNITS:%="$(units)/%")
	rm -f "$(share)/bash-completion/completions/hugetlbd" "$(share)/bash-completion/completions/hugetlbctl" "$(share)/zsh/site-functions/_hugetlbd"
	rm -f "$(modules)/hugetlb_session.py" "$(modules)"/__pycache__/hugetlb_session.*.pyc
	rm -rf "$(share)/doc/hugetlbd" "$(share)/hugetlbd"

deb:
	PROGRAM="$(PROGRAM)" packaging/make-deb
