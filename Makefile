# The programs capcopy and pcapfile, and the library pcapfile for C.
#
#   make                   builds them in out/ from portable/*.c, which are generated from the proved code; needs only a C compiler
#   make proved            proves the crates and builds them in out/proved/; needs 'rt' of the Rattle toolchain
#   make check             runs every test that needs no 'rt', over the builds in out/
#   make install PREFIX=/usr DESTDIR=room    installs them, with headers, man pages, completions and pkg-config's file
#   make uninstall         removes the installed files; give it the same PREFIX and DESTDIR
#   make dist              makes out/pcapfile-VERSION-SYSTEM.tar.gz, which runs where you unpack it
#   make amalgamation      makes out/pcapfile-amalgamation-VERSION.tar.gz: the library as C files, for cc, CMake or Meson
#   make deb               makes out/*.deb: libpcapfile0, libpcapfile-dev, python3-pcapfile and pcapfile
#   make crate             makes out/pcapfile-VERSION.crate, the crate for Rust, with the library in it
#   make wheel             makes out/pcapfile-VERSION-*.whl, the package for Python
#
# `make FORM=proved WORD` uses the proved build, and `make WORD` the build from C. The first proof takes half an hour. JOBS sets how
# many jobs the proof may run.

PREFIX ?= /usr/local
libdir ?= $(PREFIX)/lib
zshdir ?= $(PREFIX)/share/zsh/site-functions
bindir = $(PREFIX)/bin
includedir = $(PREFIX)/include
datadir = $(PREFIX)/share
CFLAGS ?= -O2
LDFLAGS ?= -s
PYTHON ?= python3

# To change the version, edit the file VERSION. tests/packages/run compares the other places that have the version with it.
VERSION := $(shell cat VERSION)
ABI = 0
SHARED = libpcapfile.so.$(VERSION)
FORM ?= portable
OUT = $(if $(filter proved,$(FORM)),out/proved,out)
DIST = pcapfile-$(VERSION)-$(shell uname -sm | tr 'A-Z ' 'a-z-')
AMALGAMATION = pcapfile-amalgamation-$(VERSION)
TAR = tar --sort=name --owner=0 --group=0 --numeric-owner --mtime=@$${SOURCE_DATE_EPOCH:-$$(stat -c %Y VERSION)} -cz

.PHONY: all proved check install uninstall dist amalgamation crate deb wheel clean
.DELETE_ON_ERROR:

all: $(OUT)/capcopy $(OUT)/$(SHARED) $(OUT)/libpcapfile.a $(OUT)/pcapfile

proved:
	$(MAKE) FORM=proved all

# A crate and all crates that it uses, as crates.txt lists them. The last ones are the toolchain's ports.
crates_of = $(shell awk -v crates=$(1) 'BEGIN { split(crates, todo) } { name = $$1; sub(":", "", name); below[name] = $$0 } \
    END { for (n = 1; n > 0; ) { crate = todo[n--]; if (seen[crate]++) continue; print crate; \
    for (k = split(below[crate], words); k > 1; k--) todo[++n] = words[k] } }' crates.txt)

ifeq ($(FORM),proved)
KIT = $(shell dirname "$$(dirname "$$(readlink -f "$$(command -v rt)")")")
JOBS_OF_RT = $(if $(JOBS),--jobs $(JOBS))
folders_of = $(wildcard $(foreach crate,$(call crates_of,$(1)),crates/$(crate)/src crates/$(crate)/specs crates/$(crate)/proofs))
sources_of = crates.txt $(shell find $(call folders_of,$(1)) -type f)

# Stops with one line if a tool is missing.
needed := $(strip $(foreach tool,rt $(LD) objcopy strip,$(if $(shell command -v $(tool)),,$(tool))))
needs_rt = $(if $(needed),$(error not on the PATH: $(needed); 'rt' is the command of the Rattle toolchain, and 'make' alone needs only a C compiler))

crates/capcopy/out/capcopy: $(call sources_of,capcopy)
	$(needs_rt)cd crates/capcopy && rt run $(JOBS_OF_RT) -- list < stdin > /dev/null
	touch $@

crates/pcapfile/out/pcapfile: $(call sources_of,pcapfile)
	$(needs_rt)cd crates/pcapfile && rt run $(JOBS_OF_RT) -- --version > /dev/null
	touch $@

crates/pcapfile_c/out/libpcapfile_c.a: $(call sources_of,pcapfile_c)
	$(needs_rt)cd crates/pcapfile_c && rt lib $(JOBS_OF_RT)
	touch $@

$(OUT)/capcopy: crates/capcopy/out/capcopy
$(OUT)/pcapfile: crates/pcapfile/out/pcapfile
$(OUT)/capcopy $(OUT)/pcapfile:
	@mkdir -p $(OUT)
	strip -o $@ $<

# One object with everything that the library needs. Only the names of the header are global.
$(OUT)/libpcapfile.o: crates/pcapfile_c/out/libpcapfile_c.a
	@mkdir -p $(OUT)
	$(LD) -r --whole-archive $< --no-whole-archive $(KIT)/c/liblibc_c.a -o $@
	objcopy --wildcard --keep-global-symbol='pcapfile_*' $@
else
# If these files cannot be compiled here, stops with one line of its own and no message of the compiler.
lack = $(eval lack := $$(shell packages/compiles $(CC) $(CPPFLAGS) $(CFLAGS)))$(lack)
compile = $(if $(lack),$(error $(lack)))$(CC) $(CPPFLAGS) $(CFLAGS) -std=gnu11
said = @echo '$@: from $<, generated from the proved code' >&2

$(OUT)/libpcapfile.o: portable/pcapfile.c
	$(said)
	@mkdir -p $(OUT)
	$(compile) -fPIC -c $< -o $@

$(OUT)/capcopy $(OUT)/pcapfile: $(OUT)/%: portable/%_program.c portable/os.c
	$(said)
	@mkdir -p $(OUT)
	$(compile) $(LDFLAGS) $^ -o $@
endif

$(OUT)/libpcapfile.a: $(OUT)/libpcapfile.o
	rm -f $@
	$(AR) rcs $@ $<

# The other two names are no symbolic links, since rt ci refuses a repository with one.
$(OUT)/$(SHARED): $(OUT)/libpcapfile.o include/names
	$(CC) -shared -Wl,-soname,libpcapfile.so.$(ABI) -Wl,--version-script,include/names -Wl,-z,noexecstack $(LDFLAGS) $< -o $@
	rm -f $(OUT)/libpcapfile.so.$(ABI) $(OUT)/libpcapfile.so
	ln $@ $(OUT)/libpcapfile.so.$(ABI)
	ln $@ $(OUT)/libpcapfile.so

# The man page and the completions of pcapfile, made from its help.
$(OUT)/pages: $(OUT)/pcapfile packages/pages VERSION
	rm -rf $@
	mkdir -p $@
	$(PYTHON) packages/pages $(OUT)/pcapfile $@

check: all
	tests/check $(OUT)

# The installed files, one per row: mode, file and place. The mode 'link' makes a symbolic link.
licences = LICENSE NOTICE $(wildcard portable/licences/*)
INSTALLED = \
    755:$(OUT)/capcopy:$(bindir)/capcopy \
    755:$(OUT)/pcapfile:$(bindir)/pcapfile \
    644:include/pcapfile.h:$(includedir)/pcapfile.h \
    644:include/pcapfile_open.h:$(includedir)/pcapfile_open.h \
    644:c/open.c:$(datadir)/pcapfile/open.c \
    644:$(OUT)/libpcapfile.a:$(libdir)/libpcapfile.a \
    644:$(OUT)/$(SHARED):$(libdir)/$(SHARED) \
    link:$(SHARED):$(libdir)/libpcapfile.so.$(ABI) \
    link:libpcapfile.so.$(ABI):$(libdir)/libpcapfile.so \
    644:$(OUT)/pcapfile.pc:$(libdir)/pkgconfig/pcapfile.pc \
    644:man/capcopy.1:$(datadir)/man/man1/capcopy.1 \
    644:$(OUT)/pages/pcapfile.1:$(datadir)/man/man1/pcapfile.1 \
    644:packages/completions/capcopy.bash:$(datadir)/bash-completion/completions/capcopy \
    644:$(OUT)/pages/pcapfile.bash:$(datadir)/bash-completion/completions/pcapfile \
    644:packages/completions/_capcopy:$(zshdir)/_capcopy \
    644:$(OUT)/pages/_pcapfile:$(zshdir)/_pcapfile \
    $(foreach it,CHANGELOG.md $(licences),644:$(it):$(datadir)/doc/pcapfile/$(notdir $(it)))

install: all $(OUT)/pages
	sed -e 's|@PREFIX@|$(PREFIX)|; s|@LIBDIR@|$(libdir)|; s|@VERSION@|$(VERSION)|' packages/pcapfile.pc.in >$(OUT)/pcapfile.pc
	@printf '%s\n' $(INSTALLED) | while IFS=: read -r mode file place; do \
	    place="$(DESTDIR)$$place"; install -d "$${place%/*}" && \
	    if [ $$mode = link ]; then ln -sf $$file "$$place"; else install -m $$mode $$file "$$place"; fi || exit 1; done

uninstall:
	@printf '%s\n' $(INSTALLED) | while IFS=: read -r mode file place; do rm -f "$(DESTDIR)$$place" || exit 1; done
	@rmdir $(DESTDIR)$(datadir)/pcapfile $(DESTDIR)$(datadir)/doc/pcapfile 2>/dev/null || :

# The files of `make install`. pkg-config's file finds them by its own place, and SHA256SUMS has the sum of each file.
dist: all
	rm -rf $(OUT)/$(DIST) $(OUT)/$(DIST).tar.gz
	$(MAKE) -s install DESTDIR=$(OUT)/$(DIST) PREFIX= libdir=/lib
	sed -i -e 's|^prefix=.*|prefix=$${pcfiledir}/../..|' -e 's|^libdir=.*|libdir=$${prefix}/lib|' \
	    $(OUT)/$(DIST)/lib/pkgconfig/pcapfile.pc
	cd $(OUT)/$(DIST) && find . -type f ! -name SHA256SUMS | sort | xargs sha256sum > SHA256SUMS
	$(TAR) -C $(OUT) -f $(OUT)/$(DIST).tar.gz $(DIST)
	rm -rf $(OUT)/$(DIST)
	@echo $(DIST).tar.gz

# The library as C files. Making this tarball needs no compiler.
amalgamation:
	rm -rf out/$(AMALGAMATION) out/$(AMALGAMATION).tar.gz
	mkdir -p out/$(AMALGAMATION)
	cp portable/pcapfile.c include/pcapfile.h include/pcapfile_open.h c/open.c packages/pcapfile.pc.in LICENSE NOTICE out/$(AMALGAMATION)
	cp $(wildcard $(addprefix portable/licences/LICENSE.,$(call crates_of,pcapfile_c))) out/$(AMALGAMATION)
	for it in CMakeLists.txt meson.build meson_options.txt README.md.in; do \
	    sed 's|@VERSION@|$(VERSION)|; s|@ABI@|$(ABI)|' packages/amalgamation/$$it >out/$(AMALGAMATION)/$${it%.in} || exit 1; done
	$(TAR) -C out -f out/$(AMALGAMATION).tar.gz $(AMALGAMATION)
	rm -rf out/$(AMALGAMATION)
	@echo $(AMALGAMATION).tar.gz

# The crate for Rust. cargo packs it from a folder that also has the library as a C file, and the licences.
crate:
	rm -rf out/crate out/pcapfile-$(VERSION).crate
	mkdir -p out/crate
	cp -r rust/build.rs rust/src rust/examples rust/tests portable/pcapfile.c LICENSE NOTICE README.md out/crate
	cp $(wildcard $(addprefix portable/licences/LICENSE.,$(call crates_of,pcapfile_c))) out/crate
	sed 's|"\.\./README.md"|"README.md"|' rust/Cargo.toml >out/crate/Cargo.toml
	cd out/crate && cargo package -q --offline --allow-dirty --no-verify --target-dir packed
	mv out/crate/packed/package/pcapfile-$(VERSION).crate out
	rm -rf out/crate
	@echo pcapfile-$(VERSION).crate

# The package for Python. pip makes it from python/ with the installed setuptools and wheel.
wheel:
	rm -f out/*.whl
	$(PYTHON) -m pip wheel -q --disable-pip-version-check --no-index --no-build-isolation --no-deps -w out ./python
	@cd out && printf '%s\n' *.whl

# Debian's packages, built by debian/ in a copy of this folder, so that no built file gets among the sources.
deb:
	rm -rf out/deb out/*.deb
	mkdir -p out/deb/pcapfile
	tar --exclude=./.git --exclude=out --exclude=target --exclude=__pycache__ -c . | tar -x -C out/deb/pcapfile
	cd out/deb/pcapfile && dpkg-buildpackage -us -uc -b >&2
	mv out/deb/*.deb out/
	rm -rf out/deb
	@cd out && printf '%s\n' *.deb

clean:
	rm -rf out
