# Installs what release/ holds: the program and the libraries for C, with man pages, completions and bindings. It builds
# nothing that is proved.
#
#     make install PREFIX=/usr/local DESTDIR=    puts all below PREFIX; with DESTDIR, below DESTDIR/PREFIX
#     make install-program                       the program, man pages, completions and documents; no C compiler needed
#     make uninstall                             removes what `make install` put there, with the same PREFIX and DESTDIR
#     make check                                 runs ./selftest
#     make dist                                  makes out/dispatch-VERSION.tar.gz of the last commit, and its sum
#
# The libraries are the objects of release/c, with heap.c as their memory. A shared library exports the functions of its
# header and no other name. The number in its soname is the version of that header (RBC_VERSION, ERTMS_VERSION), which
# rises where a struct changes. So a program that was linked with another layout does not start, while one that was
# linked before a function was added, or a rule changed, does.

PREFIX = /usr/local
DESTDIR =
CC = cc
CFLAGS = -O2

bin = $(DESTDIR)$(PREFIX)/bin
lib = $(DESTDIR)$(PREFIX)/lib
include = $(DESTDIR)$(PREFIX)/include
share = $(DESTDIR)$(PREFIX)/share
doc = $(share)/doc/dispatch
bindings = $(share)/dispatch/bindings

VERSION := $(shell sed -n 's/^\#\# \([0-9.]*\), rules .*/\1/p' CHANGELOG.md | head -n 1)
RBC_ABI := $(shell sed -n 's/^\#define RBC_VERSION \([0-9]*\)$$/\1/p' release/c/rbc.h)
ERTMS_ABI := $(shell sed -n 's/^\#define ERTMS_VERSION \([0-9]*\)$$/\1/p' release/c/ertms.h)

OUT = out
MADE = $(OUT)/lib
LIBRARIES = $(MADE)/librbc.a $(MADE)/libertms.a $(MADE)/librbc.so.$(RBC_ABI) $(MADE)/libertms.so.$(ERTMS_ABI)
PACKAGES = $(MADE)/rbc.pc $(MADE)/ertms.pc
PAGES = $(wildcard docs/*.1)
DOCUMENTS = README.md CHANGELOG.md $(wildcard docs/*.md docs/*.svg docs/*.png)
EXAMPLES = $(wildcard examples/*.toml examples/*.txt examples/*.batch examples/*.expected examples/c/*.c examples/desk/*.*)
SHARED = bash-completion/completions/dispatch zsh/site-functions/_dispatch fish/vendor_completions.d/dispatch.fish \
	wireshark/ertms.lua
BINDINGS = $(wildcard bindings/cpp/*.cpp bindings/ada/*.ad? bindings/python/*.py) \
	$(wildcard bindings/rust/*.toml bindings/rust/*.rs bindings/rust/*/*.rs)
HEADERS = release/c/rbc.h release/c/ertms.h bindings/cpp/rbc.hpp

all: $(LIBRARIES) $(PACKAGES)

# The release is what its sums say.
sums:
	@cd release && sha256sum --check --quiet SHA256SUMS
	@test ! -e release/STALE || echo 'make: release/ is behind the sources: what it holds is installed' >&2

compiler:
	@command -v $(firstword $(CC)) > /dev/null \
		|| { echo 'make: no C compiler $(CC): `make install-program` needs none' >&2; exit 1; }

$(MADE)/heap.o: release/c/heap.c | compiler
	@mkdir -p $(MADE)
	$(CC) $(CFLAGS) -fPIC -c $< -o $@

# heap.o stays an object of its own: a program that has these three functions itself is linked with its own.
$(MADE)/lib%.a: release/c/lib%_c.a $(MADE)/heap.o
	@mkdir -p $(MADE)/$*
	cd $(MADE)/$* && ar x $(abspath $<) && mv $*_c.o ../$*.o
	rm -f $@
	ar rcsD $@ $(MADE)/$*.o $(MADE)/heap.o

# $(1) is the library, $(2) the number in its soname.
define shared
$(MADE)/lib$(1).so.$(2): $(MADE)/lib$(1).a
	printf '%s_%s { global: %s_*; local: *; };\n' $$$$(echo $(1) | tr a-z A-Z) $(2) $(1) > $(MADE)/$(1).map
	$$(CC) -shared -Wl,-soname,lib$(1).so.$(2) -Wl,--version-script=$(MADE)/$(1).map -Wl,-z,defs,-z,relro,-z,now \
		$$(LDFLAGS) $(MADE)/$(1).o $(MADE)/heap.o -o $$@
endef
$(eval $(call shared,rbc,$(RBC_ABI)))
$(eval $(call shared,ertms,$(ERTMS_ABI)))

# It has PREFIX in it, so it is made at each run.
$(MADE)/%.pc: FORCE
	@mkdir -p $(MADE)
	@printf '%s\n' 'prefix=$(PREFIX)' 'libdir=$${prefix}/lib' 'includedir=$${prefix}/include' \
		'bindings=$${prefix}/share/dispatch/bindings' '' 'Name: $*' 'Description: $(DESCRIPTION)' 'Version: $(VERSION)' \
		'Libs: -L$${libdir} -l$*' 'Cflags: -I$${includedir}' > $@
$(MADE)/rbc.pc: DESCRIPTION = A desk of an ETCS radio block centre: emergency stops and speed restrictions to trains
$(MADE)/ertms.pc: DESCRIPTION = The codec for ETCS messages of emergency stops, speed restrictions and train positions

install: compiler install-program install-libraries

install-program: sums
	install -d $(bin) $(share)/man/man1 $(doc)/docs $(addprefix $(doc)/examples/,c desk) $(addprefix $(share)/,$(dir $(SHARED)))
	install -m 755 release/dispatch $(bin)/dispatch
	@for page in $(PAGES); do \
		sed 's|/usr/local/share|$(PREFIX)/share|g' $$page > $(share)/man/man1/$${page#docs/} \
			&& chmod 644 $(share)/man/man1/$${page#docs/} || exit 1; \
	done
	@for file in $(SHARED); do install -m 644 share/$$file $(share)/$$file || exit 1; done
	@for file in $(DOCUMENTS) $(EXAMPLES); do install -m 644 $$file $(doc)/$$file || exit 1; done

# Where the loader looks in the folder of the libraries, it is told of them; elsewhere LD_LIBRARY_PATH has to name that.
install-libraries: sums $(LIBRARIES) $(PACKAGES)
	install -d $(lib)/pkgconfig $(include) $(addprefix $(share)/dispatch/,$(sort $(dir $(BINDINGS))))
	install -m 644 $(filter %.a,$(LIBRARIES)) $(lib)
	install -m 755 $(filter-out %.a,$(LIBRARIES)) $(lib)
	ln -sf librbc.so.$(RBC_ABI) $(lib)/librbc.so
	ln -sf libertms.so.$(ERTMS_ABI) $(lib)/libertms.so
	install -m 644 $(PACKAGES) $(lib)/pkgconfig
	install -m 644 $(HEADERS) $(include)
	@for file in $(BINDINGS); do install -m 644 $$file $(share)/dispatch/$$file || exit 1; done
	@test -n '$(DESTDIR)' || test "$$(id -u)" -ne 0 \
		|| ! /sbin/ldconfig -N -v 2> /dev/null | grep -q '^$(PREFIX)/lib:' || /sbin/ldconfig

uninstall:
	rm -f $(bin)/dispatch $(addprefix $(share)/,$(SHARED)) $(addprefix $(share)/man/man1/,$(notdir $(PAGES)))
	rm -f $(addprefix $(lib)/,$(notdir $(LIBRARIES)) librbc.so libertms.so)
	rm -f $(addprefix $(lib)/pkgconfig/,$(notdir $(PACKAGES)))
	rm -f $(addprefix $(include)/,$(notdir $(HEADERS)))
	rm -rf $(doc) $(share)/dispatch

check:
	./selftest

# What was changed since the last commit is not in it.
dist: sums
	@mkdir -p $(OUT)
	git archive --format=tar --prefix=dispatch-$(VERSION)/ HEAD | gzip -n -9 > $(OUT)/dispatch-$(VERSION).tar.gz
	cd $(OUT) && sha256sum dispatch-$(VERSION).tar.gz | tee dispatch-$(VERSION).tar.gz.sha256

clean:
	rm -rf $(OUT)

FORCE:
.PHONY: all sums compiler install install-program install-libraries uninstall check dist clean FORCE
.DELETE_ON_ERROR:
