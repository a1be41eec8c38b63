# catzd: build, check, install. `make` needs a Rattle kit (`rt` in PATH); the rest needs what its line says.
#
#   make             proves and builds the program with `rt`, which repeats only what changed
#   make demo        shows the program beside a primary with a catalog; compiles it without proofs if it wasn't built (python3)
#   make check       the gate, `rt ci`: every proof, wrong bodies, tests, stored runs
#   make install     installs what was built; builds nothing, and leaves an existing configuration alone
#   make uninstall   removes what install put there, except the configuration
#   make dist        makes out/catzd-VERSION.tar.gz of the sources, the same octets for the same files
#   make deb         makes out/catzd_VERSION_ARCHITECTURE.deb of what was built, a Debian package; builds nothing (dpkg-deb)
#   make check-man   compares the man pages with the program's definitions
#   make docs        makes docs/DEFINITIONS.md from the comments of the definitions
#   make check-docs  finds in the repository what the documents link to and name, and compares the stored run with its theorems
#   make bench       measures catzd and the servers that are installed (python3)
#   make interop     compares replies with those of the servers that are installed (python3)
#   make downstream  has the servers that are installed take zones from catzd (python3)
#   make validate    has unbound and delv validate the replies for signed zones (python3)
#   make producer    has the servers that are installed serve a catalog that catzd makes (python3)
#   make signed      has catzd take signed transfers from the servers that are installed (python3)
#   make check-limits  brings catzd to its limits: records, members, octets, jobs (python3)
#   make check-memory  refuses requests for memory of two runs, one after the other (python3)
#   make kept        kills catzd at a thousand moments, spoils what it keeps, and measures its starts (python3)
#
# There is no `make clean`: crates/*/out has proofs, which took hours.

PREFIX     = /usr/local
SBINDIR    = $(PREFIX)/sbin
MANDIR     = $(PREFIX)/share/man
UNITDIR    = $(PREFIX)/lib/systemd/system
DOCDIR     = $(PREFIX)/share/doc/catzd
SYSCONFDIR = /etc
DESTDIR    =

INSTALL = install
PYTHON  = python3
RT      = rt

VERSION    = 0.1
MAINTAINER = catzd <root@localhost>
OUT        = out

PROGRAM = crates/catzd/out/catzd
CONFDIR = $(SYSCONFDIR)/catzd
SAMPLES = knot.conf nsd.conf named.conf pdns.conf pdns-zones.conf catzd.toml \
	catalog.example.zone a.example.zone b.example.zone c.example.zone
TEXTS   = OPERATING.md USING.md INTEROP.md PERFORMANCE.md RFC.md DECISIONS.md GLOSSARY.md
SCRIPTS = zonefile.py

all:
	cd crates/catzd && $(RT) run -- rehearse 10

demo:
	$(PYTHON) contrib/demo.py

check:
	$(RT) ci

install:
	@test -x $(PROGRAM) || { echo "there is no $(PROGRAM): run make first" >&2; exit 1; }
	$(INSTALL) -d "$(DESTDIR)$(SBINDIR)" "$(DESTDIR)$(MANDIR)/man8" "$(DESTDIR)$(MANDIR)/man5"
	$(INSTALL) -d "$(DESTDIR)$(UNITDIR)" "$(DESTDIR)$(DOCDIR)/samples" "$(DESTDIR)$(DOCDIR)/docs"
	$(INSTALL) -d "$(DESTDIR)$(DOCDIR)/contrib"
	$(INSTALL) -d "$(DESTDIR)$(CONFDIR)"
	$(INSTALL) -m 755 $(PROGRAM) "$(DESTDIR)$(SBINDIR)/catzd"
	$(INSTALL) -m 644 man/catzd.8 "$(DESTDIR)$(MANDIR)/man8/catzd.8"
	$(INSTALL) -m 644 man/catzd.toml.5 "$(DESTDIR)$(MANDIR)/man5/catzd.toml.5"
	sed 's|@SBINDIR@|$(SBINDIR)|g; s|@SYSCONFDIR@|$(SYSCONFDIR)|g' distro/catzd.service.in \
		> "$(DESTDIR)$(UNITDIR)/catzd.service"
	chmod 644 "$(DESTDIR)$(UNITDIR)/catzd.service"
	for one in $(SAMPLES); do \
		$(INSTALL) -m 644 samples/$$one "$(DESTDIR)$(DOCDIR)/samples/$$one" || exit 1; done
	$(INSTALL) -m 644 README.md "$(DESTDIR)$(DOCDIR)/README.md"
	for one in $(TEXTS); do $(INSTALL) -m 644 docs/$$one "$(DESTDIR)$(DOCDIR)/docs/$$one" || exit 1; done
	for one in $(SCRIPTS); do \
		$(INSTALL) -m 755 contrib/$$one "$(DESTDIR)$(DOCDIR)/contrib/$$one" || exit 1; done
	test -e "$(DESTDIR)$(CONFDIR)/catzd.toml" || \
		$(INSTALL) -m 600 samples/catzd.toml "$(DESTDIR)$(CONFDIR)/catzd.toml"

uninstall:
	rm -f "$(DESTDIR)$(SBINDIR)/catzd" "$(DESTDIR)$(UNITDIR)/catzd.service"
	rm -f "$(DESTDIR)$(MANDIR)/man8/catzd.8" "$(DESTDIR)$(MANDIR)/man5/catzd.toml.5"
	for one in $(SAMPLES); do rm -f "$(DESTDIR)$(DOCDIR)/samples/$$one"; done
	rm -f "$(DESTDIR)$(DOCDIR)/README.md"
	for one in $(TEXTS); do rm -f "$(DESTDIR)$(DOCDIR)/docs/$$one"; done
	for one in $(SCRIPTS); do rm -f "$(DESTDIR)$(DOCDIR)/contrib/$$one"; done
	-rmdir "$(DESTDIR)$(DOCDIR)/samples" "$(DESTDIR)$(DOCDIR)/docs" "$(DESTDIR)$(DOCDIR)/contrib" "$(DESTDIR)$(DOCDIR)"

dist:
	distro/dist.sh $(VERSION) $(OUT)

deb:
	rm -rf $(OUT)/deb
	$(MAKE) install DESTDIR=$(OUT)/deb PREFIX=/usr SYSCONFDIR=/etc UNITDIR=/usr/lib/systemd/system
	distro/deb.sh $(OUT)/deb $(VERSION) "$(MAINTAINER)" $(OUT)
	rm -rf $(OUT)/deb

check-man:
	$(PYTHON) tests/man/check.py
	@if command -v mandoc > /dev/null; then echo mandoc -T lint man/catzd.8 man/catzd.toml.5; \
		mandoc -T lint -W warning man/catzd.8 man/catzd.toml.5; \
		else echo "mandoc isn't installed, and checks nothing."; fi

docs:
	$(PYTHON) tests/docs/definitions.py

check-docs:
	$(PYTHON) tests/docs/check.py
	$(PYTHON) tests/stored/compare.py

bench:
	$(PYTHON) bench/measure.py

interop:
	$(PYTHON) tests/interop/interop.py

downstream:
	$(PYTHON) tests/interop/downstream.py

validate:
	$(PYTHON) tests/interop/validate.py

producer:
	$(PYTHON) tests/interop/producer.py

signed:
	$(PYTHON) tests/interop/signed_transfers.py

kept:
	$(PYTHON) tests/load/restarts.py

check-limits:
	$(PYTHON) tests/limits/limits.py --catzd $(PROGRAM)

check-memory:
	$(PYTHON) tests/memory/refused.py

.PHONY: all check install uninstall dist deb check-man docs check-docs bench interop downstream validate producer signed kept check-limits demo check-memory
