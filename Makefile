# make              build sigc without proofs (minutes), unless a program is there that is as new as the sources
# make run          run the example of the README
# make check        test the program that is there; one line as each part ends
# make proof        the whole gate: every proof, then `make check` on the proved program (about an hour)
# make install      install sigc, its scripts, man pages and completions below PREFIX
# make deb          the same as a Debian package, in out/
# SIGC=FILE make .. takes the program FILE and builds none.

PREFIX ?= /usr/local

.PHONY: all run check proof install deb

all:
	@test -n "$$SIGC" || ./sigc --which > /dev/null 2>&1 || tools/sigc-build --unproved

run: all
	tools/sigc run examples/down.sig examples/down.flows

check: all
	python3 tests/check.py

proof:
	.ci/run

install: all
	tools/sigc-install $(DESTDIR)$(PREFIX)

deb: all
	tools/sigc-install --deb out
