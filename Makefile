# make install [DESTDIR=] [PREFIX=/usr/local]   installs program, manual page, tools, completion, examples
# make uninstall [DESTDIR=] [PREFIX=/usr/local] removes what that installed
# make deb [OUT=out] [PARTS=tazbrev]            makes a Debian package of each part
# make lib [OUT=out]                            makes the C library of the released archive and of c/
# make plugin [OUT=out]                         makes the plugin for nbdkit
# make install-lib [DESTDIR=] [PREFIX=..]       installs the C library, its header and tazbrev.pc
# make install-plugin [DESTDIR=]                installs the plugin where nbdkit looks for it
# make install-python [DESTDIR=] [PREFIX=..]    installs the package for Python, which looks for the C library
# make uninstall-lib, -plugin, -python          remove what these installed
# make clean [OUT=out]                          removes what these made there
#
# The program is the release. PROGRAM=FILE installs another one, as crates/geomrun/out/geomrun, which ./prove builds.
# The archive is the released one. ARCHIVE=FILE takes another one, which `rt lib` makes in crates/geo_exports.
# Each part has a rule install-PART and a folder packaging/PART. VERSION is the version of them all.
PARTS = tazbrev libtazbrev0 libtazbrev-dev nbdkit-plugin-tazbrev python3-tazbrev

PREFIX = /usr/local
DESTDIR =
PROGRAM = release/geomrun
ARCHIVE = release/library/libgeo_exports.a
OUT = out
CC = cc
CFLAGS = -O2
WARNINGS = -std=c11 -Wall -Wextra
VERSION := $(shell cat VERSION)
ARCHITECTURE = amd64
TRIPLE = x86_64-linux-gnu

bindir = $(DESTDIR)$(PREFIX)/bin
libexecdir = $(DESTDIR)$(PREFIX)/libexec/tazbrev
sharedir = $(DESTDIR)$(PREFIX)/share
datadir = $(sharedir)/tazbrev
docdir = $(sharedir)/doc/tazbrev
zshdir = $(sharedir)/zsh/site-functions
libdir = $(DESTDIR)$(PREFIX)/lib
includedir = $(DESTDIR)$(PREFIX)/include
pythondir = $(DESTDIR)$(PREFIX)/lib/python3/dist-packages
plugindir = $(DESTDIR)$(shell pkg-config --variable=plugindir nbdkit)

# The C library: its files beside the archive, and what is made of them.
LAYER = tazbrev trace numbers
OBJECTS = $(LAYER:%=$(OUT)/c/%.o)
SHARED = libtazbrev.so.0
PLUGIN = nbdkit-tazbrev-plugin.so

# What is installed of a folder, as find is asked for it.
FILES = -type f ! -name '.*' ! -name '*.pyc' ! -name '*.img'
DOCUMENTS = README.md CHANGELOG.md LICENSE NOTICE SECURITY.md docs/PROFILE.md docs/TOOLS.md docs/RECIPES.md docs/view.png
# Where a Debian package has its documents and its examples.
documents = $(DESTDIR)$(PREFIX)/share/doc

.PHONY: all install uninstall deb clean fits fits-lib lib plugin install-lib install-plugin install-python uninstall-lib \
    uninstall-plugin uninstall-python $(PARTS:%=install-%) $(PARTS:%=deb-%)

all:
	@sed -n 's/^# \(make\)/\1/p' Makefile

# That the program may be installed: the release as ./geomrun judges it, or one that is named.
fits:
ifeq ($(PROGRAM),release/geomrun)
	@grep -qx "    sources  *$$(release/sum)" release/MADE.md || \
	    { { echo "make: the release was made from other sources"; release/sum --differs | head -n 3; } >&2; exit 1; }
	@grep -qx "    program  *$$(sha256sum <release/geomrun | cut -d ' ' -f 1)" release/MADE.md || \
	    { echo "make: release/geomrun isn't the recorded file" >&2; exit 1; }
endif

# The same of the archive.
fits-lib:
ifeq ($(ARCHIVE),release/library/libgeo_exports.a)
	@grep -qx "    sources  *$$(release/sum --library)" release/library/MADE.md || \
	    { echo "make: the archive was made from other sources" >&2; exit 1; }
	@grep -qx "    archive  *$$(sha256sum <$(ARCHIVE) | cut -d ' ' -f 1)" release/library/MADE.md || \
	    { echo "make: $(ARCHIVE) isn't the recorded file" >&2; exit 1; }
endif

install: install-tazbrev

install-tazbrev: fits
	install -d $(bindir) $(libexecdir) $(datadir) $(docdir) $(sharedir)/man/man8 $(zshdir)
	install -m 755 geomrun $(bindir)/geomrun
	install -m 755 $(PROGRAM) $(libexecdir)/geomrun
	install -m 755 tools/geom $(datadir)/geom
	cd tools && find geomtools $(FILES) -exec install -D -m 644 {} $(abspath $(datadir))/{} ';'
	ln -sf ../share/tazbrev/geom $(bindir)/geom
	install -m 644 VERSION $(datadir)/VERSION
	install -m 644 docs/geomrun.8 $(sharedir)/man/man8/geomrun.8
	install -m 644 $(DOCUMENTS) $(docdir)
	find examples $(FILES) ! -perm -u+x -exec install -D -m 644 {} $(docdir)/{} ';'
	find examples $(FILES) -perm -u+x -exec install -D -m 755 {} $(docdir)/{} ';'
	cd share && find bash-completion vim $(FILES) -exec install -D -m 644 {} $(abspath $(sharedir))/{} ';'
	install -m 644 share/zsh/site-functions/* $(zshdir)

lib: $(OUT)/$(SHARED) $(OUT)/libtazbrev.a

$(OUT)/c/%.o: c/%.c c/mesh.h c/tazbrev.h
	@mkdir -p $(OUT)/c
	$(CC) $(WARNINGS) $(CFLAGS) -fPIC -c -o $@ $<

$(OUT)/$(SHARED): $(OBJECTS) $(ARCHIVE) c/tazbrev.map
	$(CC) $(CFLAGS) -shared -Wl,-soname,$(SHARED),--version-script=c/tazbrev.map,-z,defs -o $@ $(OBJECTS) \
	    -Wl,--whole-archive $(ARCHIVE) -Wl,--no-whole-archive
	ln -sf $(SHARED) $(OUT)/libtazbrev.so

# All in one object, in which the names of calls alone are seen.
$(OUT)/libtazbrev.a: $(OBJECTS) $(ARCHIVE)
	$(CC) -r -nostdlib -o $(OUT)/c/libtazbrev.o $(OBJECTS) -Wl,--whole-archive $(ARCHIVE) -Wl,--no-whole-archive
	objcopy --wildcard --keep-global-symbol='tzb_*' $(OUT)/c/libtazbrev.o
	rm -f $@
	ar -rcs $@ $(OUT)/c/libtazbrev.o

plugin: $(OUT)/$(PLUGIN)

$(OUT)/$(PLUGIN): c/nbdkit-plugin.c c/tazbrev.h $(OUT)/libtazbrev.a
	$(CC) $(WARNINGS) $(CFLAGS) -Ic $$(pkg-config --cflags nbdkit) -fPIC -shared -pthread -o $@ c/nbdkit-plugin.c \
	    $(OUT)/libtazbrev.a

install-shared: fits-lib lib
	install -d $(libdir)
	install -m 644 $(OUT)/$(SHARED) $(libdir)

# What programs in C are built with, beside the shared library.
install-headers: fits-lib lib
	install -d $(libdir)/pkgconfig $(includedir)
	install -m 644 $(OUT)/libtazbrev.a $(libdir)
	ln -sf $(SHARED) $(libdir)/libtazbrev.so
	sed 's,@PREFIX@,$(PREFIX),; s,@LIBDIR@,$${prefix}$(libdir:$(DESTDIR)$(PREFIX)%=%),; s,@VERSION@,$(VERSION),' c/tazbrev.pc.in \
	    >$(libdir)/pkgconfig/tazbrev.pc
	install -m 644 c/tazbrev.h $(includedir)

install-lib: install-shared install-headers

install-plugin: fits-lib plugin
	install -d $(plugindir)
	install -m 644 $(OUT)/$(PLUGIN) $(plugindir)

install-python:
	install -d $(pythondir)/tazbrev
	install -m 644 python/tazbrev/*.py python/tazbrev/py.typed $(pythondir)/tazbrev
	python3 -B python/build_wheel.py --metadata $(pythondir)

# The packages beside the program's: a library, a plugin, or a package for Python, with its examples and its page.
install-libtazbrev0: install-shared

install-libtazbrev-dev: install-headers
	install -d $(documents)/libtazbrev-dev/examples
	install -m 644 docs/LIVE.md docs/LIVE-C.md $(documents)/libtazbrev-dev
	install -m 644 c/examples/*.c c/examples/*.out $(documents)/libtazbrev-dev/examples
	rm $(documents)/libtazbrev-dev/examples/stripe-over-nbd.out

install-nbdkit-plugin-tazbrev: install-plugin
	install -d $(documents)/nbdkit-plugin-tazbrev/examples
	install -m 644 docs/LIVE-C.md $(documents)/nbdkit-plugin-tazbrev
	install -m 644 c/examples/stripe.geom c/examples/stripe-over-nbd.out $(documents)/nbdkit-plugin-tazbrev/examples
	install -m 755 c/examples/stripe-over-nbd $(documents)/nbdkit-plugin-tazbrev/examples

install-python3-tazbrev: install-python
	install -d $(documents)/python3-tazbrev/examples
	install -m 644 docs/LIVE-PYTHON.md $(documents)/python3-tazbrev
	install -m 755 python/examples/*.py $(documents)/python3-tazbrev/examples

# What stands there was installed by the same rules, so these are run once more, aside, to know the names.
uninstall uninstall-lib uninstall-plugin uninstall-python:
	rm -rf $(OUT)/uninstall
	$(MAKE) -s $(subst uninstall,install,$@) DESTDIR=$(abspath $(OUT))/uninstall PREFIX=$(PREFIX) PROGRAM=VERSION
	cd $(OUT)/uninstall && find . ! -type d | while read -r file; do rm -f "$(abspath $(DESTDIR))/$$file"; done
	cd $(OUT)/uninstall && find . -depth -type d -path '*/tazbrev*' | while read -r folder; do \
	    it="$(abspath $(DESTDIR))/$$folder"; [ ! -d "$$it" ] || rmdir --ignore-fail-on-non-empty "$$it"; done
	rm -rf $(OUT)/uninstall

deb: $(PARTS:%=deb-%)

# A package: its files as they are installed, and the fields of packaging/PART/control.
$(PARTS:%=deb-%): deb-%:
	rm -rf $(OUT)/deb/$*
	$(MAKE) -s install-$* DESTDIR=$(abspath $(OUT))/deb/$* PREFIX=/usr PROGRAM=$(PROGRAM) ARCHIVE=$(ARCHIVE) \
	    libdir=$(abspath $(OUT))/deb/$*/usr/lib/$(TRIPLE) \
	    zshdir=$(abspath $(OUT))/deb/$*/usr/share/zsh/vendor-completions
	packaging/debian $* $(OUT)/deb/$* $(VERSION) $(ARCHITECTURE)
	dpkg-deb --root-owner-group -Zxz --build $(OUT)/deb/$* $(OUT)/$*_$(VERSION)_$(ARCHITECTURE).deb
	rm -rf $(OUT)/deb/$*

clean:
	rm -rf $(OUT)/deb $(OUT)/uninstall $(OUT)/*.deb $(OUT)/c $(OUT)/libtazbrev.* $(OUT)/$(PLUGIN)
