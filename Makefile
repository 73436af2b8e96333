# make                proves and builds ./composecheck
# make help           prints these lines
# make try            builds build/composecheck without a proof, in some minutes: for a look, and not for use
# make quick          all tests that need no proof, on programs and libraries that are built without one: some minutes
# make test           the gate: proves what has changed since earlier runs on this machine, and runs all tests but `make real`
# make test-anew      the gate from nothing
# make test-whole     the gate with each must-fail edit in a check of its own, as the kit's `rt ci` tries them: for a release
# make install        installs below PREFIX (/usr/local), in DESTDIR if that is set: the program, the C libraries, and the engine of IBus where it can be built
# make install-ibus   builds the engine of IBus and installs it, with the library of clients that it stands on
# make install-fcitx5 builds the addon of fcitx5 and installs it, with the same library
# make uninstall      takes away what `make install` put there
# make dist           packs the proved program for others into packages/, as an archive
# make deb            the same, as a Debian package, and one each for the engine of IBus and the addon of fcitx5, and three for the C libraries
# make release        what the page of a release holds, in packages/release: the archive, apt/ with the packages, sums, and with LLVM=FOLDER an archive of modules
# make test-packages  looks at what the packages hold
# make desk           types into windows through IBus and fcitx5, also in GNOME Shell and KWin, on displays that nobody sees (docs/TYPING.md)
# make desk-quick     the same, on a program and libraries that are built without a proof
# make pages          writes docs/made anew, what each crate promises and defines, from the sources: after a doc, a contract or a comment in specs/ changed
# make names          writes the built-in names anew from HEADERS (those in packaging/xorgproto), and prints what changed
# make compose_trials proves and builds ./compose_trials, which `make real` and `make bench` need too
# make compose_as_reader proves and builds ./compose_as_reader, which `make real` needs too
# make real           runs the program on the tables that Debian ships, its newest ones too, and types in other readers of Compose files beside it
# make bench          measures the program
# make lib            proves and builds the C libraries (docs/LIBRARY.md) in build/lib
# make lib-client     the library of clients alone, which the engines of IBus and fcitx5 stand on
# make install-lib    installs the C libraries alone, below PREFIX
# make install-client installs the library of clients alone, likewise
# make rim            tries wrong bodies of the C of the libraries and the C++ of the engines on their tests: a quarter of an hour
# make peers          runs libxkbcommon's own test of Compose, from Debian's source package, on the C library
# make clean          removes what was built, proved and packed here
PREFIX = /usr/local
PYTHON = python3
SOURCES = $(shell find crates -name out -prune -o '(' -name '*.rt' -o -name '*.antt' ')' -print) crates.txt
# In a recipe: ends it where the kit isn't there.
NEEDS_KIT = $(if $(shell command -v rt 2> /dev/null),,$(error this needs the Rattle kit: `rt` is not on the path; see "Install" in README.md))

all: composecheck

help:
	@sed -n 's/^# \(make .*\)/\1/p' $(firstword $(MAKEFILE_LIST))

LIBRARY = crates/compose_c/out/compose_c.a
CLIENT_LIBRARY = crates/compose_typing_c/out/compose_typing_c.a

# (what is installed or packed has the C libraries too: all of it is proved in one run)
ifneq ($(filter install deb release,$(MAKECMDGOALS)),)
composecheck $(LIBRARY) $(CLIENT_LIBRARY) &: $(SOURCES)
	$(NEEDS_KIT)
	python3 tools/build.py composecheck compose_c compose_typing_c
	cp crates/composecheck/out/composecheck composecheck
else
composecheck: $(SOURCES)
	$(NEEDS_KIT)
	python3 tools/build.py composecheck
	cp crates/composecheck/out/composecheck composecheck

$(LIBRARY): $(SOURCES)
	$(NEEDS_KIT)
	python3 tools/build.py compose_c

$(CLIENT_LIBRARY): $(SOURCES)
	$(NEEDS_KIT)
	python3 tools/build.py compose_typing_c
endif

try:
	$(NEEDS_KIT)
	python3 tools/unproved.py --marked build/composecheck
	@echo "build/composecheck is not proved, stops at an index out of bounds or an overflow, and is many times slower than the proved program."

compose_trials: $(SOURCES)
	$(NEEDS_KIT)
	python3 tools/build.py compose_trials
	cp crates/compose_trials/out/compose_trials compose_trials

compose_as_reader: $(SOURCES)
	$(NEEDS_KIT)
	python3 tools/build.py compose_as_reader
	cp crates/compose_as_reader/out/compose_as_reader compose_as_reader

lib: $(LIBRARY) $(CLIENT_LIBRARY)
	python3 lib/build_library.py build/lib

lib-client: $(CLIENT_LIBRARY)
	python3 lib/build_library.py --client build/lib

# (programs find a new library once ldconfig has seen it, which looks in some folders alone)
SEEN = $(if $(DESTDIR),,export PATH="$$PATH:/usr/sbin:/sbin"; ldconfig 2> /dev/null; ldconfig -p 2> /dev/null | grep -q " $(PREFIX)/lib/libcomposecheck" || echo "Programs don't find the libraries in $(PREFIX)/lib yet: run ldconfig as root, or set LD_LIBRARY_PATH if it doesn't look there.")

install-lib: $(LIBRARY) $(CLIENT_LIBRARY)
	python3 lib/install_library.py $(DESTDIR)$(PREFIX) $(PREFIX)
	@$(SEEN)

install-client: $(CLIENT_LIBRARY)
	python3 lib/install_library.py --client $(DESTDIR)$(PREFIX) $(PREFIX)
	@$(SEEN)

peers: $(LIBRARY)
	python3 tests/peers.py

rim: composecheck $(LIBRARY) $(CLIENT_LIBRARY)
	python3 tests/rim_bugs.py ./composecheck

quick:
	$(NEEDS_KIT)
	python3 tests/run.py --quick

test:
	$(NEEDS_KIT)
	python3 tools/gate.py

test-anew:
	$(NEEDS_KIT)
	python3 tools/gate.py --anew

test-whole:
	$(NEEDS_KIT)
	python3 tools/gate.py --whole

# Where $(PYTHON) looks for modules below PREFIX, if it does.
MODULES = $(shell $(PYTHON) -c 'import site, sys; print(next((it for it in site.getsitepackages() if it.startswith(sys.argv[1])), ""))' $(PREFIX)/lib/ 2> /dev/null)
MODULE_FILES = $(addprefix share/composecheck/,composecheck.py composecheck_client.py composecheck_typing.py)
IBUS_ID = org.freedesktop.ibus.engine.composecheck
UNITS = composecheck.service composecheck.socket composecheck-update@.path composecheck-update@.service composecheck-update@.timer

# What the engine of IBus can't be built without, as far as it isn't there.
IBUS_LACKS = $(shell for it in cmake c++ pkg-config; do command -v $$it > /dev/null || echo $$it; done; pkg-config --exists ibus-1.0 2> /dev/null || echo libibus-1.0-dev)

install: composecheck install-lib $(if $(IBUS_LACKS),without-ibus,install-ibus)
	install -D composecheck $(DESTDIR)$(PREFIX)/bin/composecheck
	install -D -m 644 docs/composecheck.1 $(DESTDIR)$(PREFIX)/share/man/man1/composecheck.1
	install -D -m 644 docs/composecheck.5 $(DESTDIR)$(PREFIX)/share/man/man5/composecheck.5
	install -D -m 644 -t $(DESTDIR)$(PREFIX)/share/composecheck $(wildcard share/composecheck/*.*)
	install -D -m 644 -t $(DESTDIR)$(PREFIX)/share/composecheck/repertoires $(wildcard share/composecheck/repertoires/*)
	install -D -m 644 -t $(DESTDIR)$(PREFIX)/share/composecheck/ci $(wildcard share/composecheck/ci/*)
	chmod 755 $(DESTDIR)$(PREFIX)/share/composecheck/*.sh $(DESTDIR)$(PREFIX)/share/composecheck/ci/autopkgtest
	install -D -m 644 -t $(DESTDIR)$(PREFIX)/lib/systemd/user $(addprefix share/composecheck/,$(UNITS))
	sed -i 's|/usr/local/|$(PREFIX)/|' $(addprefix $(DESTDIR)$(PREFIX)/lib/systemd/user/,$(filter %.service,$(UNITS)))
	install -D -m 644 share/completions/composecheck.bash $(DESTDIR)$(PREFIX)/share/bash-completion/completions/composecheck
	install -D -m 644 share/completions/_composecheck $(DESTDIR)$(PREFIX)/share/zsh/site-functions/_composecheck
	install -D -m 644 share/completions/composecheck.fish $(DESTDIR)$(PREFIX)/share/fish/vendor_completions.d/composecheck.fish
	$(if $(MODULES),install -D -m 644 -t $(DESTDIR)$(MODULES) $(MODULE_FILES))

without-ibus:
	@echo "The engine of IBus is left out, for lack of $(strip $(IBUS_LACKS)). With that, \`make install-ibus\` adds it."

# (an engine of IBus has settings, whose schemas are compiled where they are installed)
install-ibus install-fcitx5: install-%: composecheck install-client lib-client
	cmake -S $* -B packages/$* -DCMAKE_BUILD_TYPE=Release -DCOMPOSECHECK_CLIENT_FOLDER=$(CURDIR)/build/lib -DCMAKE_INSTALL_PREFIX=$(PREFIX) -DCOMPOSECHECK_VERSION=$$(./composecheck --version | sed -n '1s/.* //p')
	cmake --build packages/$*
	cmake --install packages/$* --strip
	$(if $(DESTDIR)$(filter fcitx5,$*),,-glib-compile-schemas $(SCHEMAS))

SCHEMAS = $(DESTDIR)$(PREFIX)/share/glib-2.0/schemas

# (cmake puts the addon of fcitx5 into the system's own folder of libraries. Schemas that are left are compiled anew)
uninstall:
	rm -rf $(DESTDIR)$(PREFIX)/share/composecheck $(DESTDIR)$(PREFIX)/share/ibus-composecheck
	rm -f $(DESTDIR)$(PREFIX)/libexec/ibus-engine-composecheck $(DESTDIR)$(PREFIX)/libexec/ibus-setup-composecheck
	rm -f $(DESTDIR)$(PREFIX)/share/ibus/component/composecheck.xml $(DESTDIR)$(PREFIX)/share/icons/hicolor/scalable/apps/ibus-composecheck.svg
	rm -f $(SCHEMAS)/$(IBUS_ID).gschema.xml $(DESTDIR)$(PREFIX)/share/metainfo/$(IBUS_ID).metainfo.xml
	$(if $(DESTDIR),,-if ls $(SCHEMAS)/*.xml > /dev/null 2>&1; then glib-compile-schemas $(SCHEMAS); else rm -f $(SCHEMAS)/gschemas.compiled; fi)
	rm -f $(DESTDIR)$(PREFIX)/lib*/fcitx5/composecheck.so $(DESTDIR)$(PREFIX)/lib/*/fcitx5/composecheck.so
	rm -f $(DESTDIR)$(PREFIX)/share/fcitx5/addon/composecheck.conf
	$(if $(MODULES),rm -f $(addprefix $(DESTDIR)$(MODULES)/,$(notdir $(MODULE_FILES))))
	rm -f $(DESTDIR)$(PREFIX)/bin/composecheck $(DESTDIR)$(PREFIX)/share/man/man1/composecheck.1 $(DESTDIR)$(PREFIX)/share/man/man5/composecheck.5
	rm -f $(addprefix $(DESTDIR)$(PREFIX)/lib/systemd/user/,$(UNITS))
	rm -f $(DESTDIR)$(PREFIX)/lib/libcomposecheck.a $(DESTDIR)$(PREFIX)/lib/libcomposecheck.so $(DESTDIR)$(PREFIX)/lib/libcomposecheck.so.1
	rm -f $(DESTDIR)$(PREFIX)/lib/libcomposecheck-xkb.so $(DESTDIR)$(PREFIX)/lib/pkgconfig/composecheck.pc $(DESTDIR)$(PREFIX)/include/composecheck.h
	rm -f $(addprefix $(DESTDIR)$(PREFIX)/lib/libcomposecheck-client.,a so so.0) $(DESTDIR)$(PREFIX)/lib/pkgconfig/composecheck-client.pc
	rm -f $(DESTDIR)$(PREFIX)/include/composecheck_client.h
	rm -f $(DESTDIR)$(PREFIX)/share/bash-completion/completions/composecheck
	rm -f $(DESTDIR)$(PREFIX)/share/zsh/site-functions/_composecheck $(DESTDIR)$(PREFIX)/share/fish/vendor_completions.d/composecheck.fish

dist: composecheck
	python3 packaging/package.py dist ./composecheck packages

deb: composecheck $(LIBRARY) $(CLIENT_LIBRARY)
	python3 packaging/package.py deb ./composecheck packages
	python3 packaging/package.py library ./composecheck packages
	python3 packaging/package.py ibus ./composecheck packages
	python3 packaging/package.py fcitx5 ./composecheck packages

release: composecheck $(LIBRARY) $(CLIENT_LIBRARY)
	python3 packaging/release.py ./composecheck packages/release $(LLVM)

test-packages: composecheck
	python3 tests/packages.py ./composecheck
	python3 tests/installed.py ./composecheck

desk: composecheck lib
	python3 tests/desk/run.py ./composecheck

desk-quick:
	$(NEEDS_KIT)
	python3 tests/desk/run.py --quick

pages:
	python3 tools/pages.py

HEADERS = packaging/xorgproto/keysymdef.h packaging/xorgproto/XF86keysym.h
names:
	python3 packaging/names.py $(HEADERS) share/composecheck/short-unicode-names.h crates/builtin_names/src/lines.rt
	python3 packaging/name_tables.py crates

real: composecheck compose_trials compose_as_reader $(LIBRARY)
	python3 tests/real.py ./composecheck ./compose_trials
	python3 tests/other_tables.py ./composecheck
	python3 tests/newest_tables.py ./composecheck
	python3 tests/real_service.py ./composecheck
	python3 tests/readers.py ./composecheck
	python3 tests/as_reader.py ./compose_as_reader
	python3 tests/streams.py ./composecheck 100000
	python3 tests/network.py ./compose_trials 100000
	python3 tests/library.py 100000
	python3 tests/shim.py 3000

bench: composecheck compose_trials $(LIBRARY)
	python3 bench/run.py ./composecheck ./compose_trials
	python3 bench/start.py ./composecheck
	python3 bench/growth.py ./composecheck docs/growth.svg
	python3 bench/service.py ./composecheck
	python3 bench/at_once.py ./composecheck
	python3 bench/beside.py ./composecheck
	python3 bench/hostile.py ./composecheck
	python3 bench/library.py

clean:
	rm -rf composecheck compose_trials compose_as_reader packages build crates/*/out

.PHONY: all help try lib lib-client install-lib install-client install-ibus install-fcitx5 peers rim quick test test-anew test-whole install uninstall dist deb release test-packages desk desk-quick pages names real bench clean
