# make            proves and builds the archive and the programs (rt; what has not changed since is not proved again)
# make check      the gate, .ci/run
# make install    installs header, archive, pkg-config file, programs and manual pages; it proves and builds only what is missing
# make uninstall  removes what install puts there, given the same variables; folders stay
#
# PREFIX and the folders below it can be set, DESTDIR stands before all of them. packaging/check tries all of that but `make` and `make check`.
VERSION = 0.1.0

PREFIX = /usr/local
BINDIR = $(PREFIX)/bin
LIBDIR = $(PREFIX)/lib
INCLUDEDIR = $(PREFIX)/include
PKGCONFIGDIR = $(LIBDIR)/pkgconfig
MANDIR = $(PREFIX)/share/man
INSTALL = install

PROGRAMS = coefficients recode_pgm percents fewest_pgm benches

# where rt leaves the archive and the programs
archive = crates/jpeg_block/out/libjpeg_block.a
programs = $(foreach program,$(PROGRAMS),crates/$(program)/out/$(program))
pages1 = $(PROGRAMS:%=man/%.1)
pages3 = man/jpeg_block.3

# in the pkg-config file a folder below the prefix follows it
below = $(patsubst $(PREFIX)/%,$${prefix}/%,$(1))
# $(call put,MODE,FILES,FOLDER) and $(call take,FILES,FOLDER)
put = $(INSTALL) -m $(1) $(2) '$(DESTDIR)$(3)'
take = rm -f $(patsubst %,'$(DESTDIR)$(2)/%',$(notdir $(1)))

# $(call build,PROGRAM): rt proves and builds a program, and then runs it: on its sample, if it has one
sample = $$([ -e stdin ] && echo stdin || echo /dev/null)
build = (cd crates/$(1) && rt run <"$(sample)" >/dev/null)
# the archive of crate jpeg_block
library = (cd crates/jpeg_block && rt lib)

all:
	$(library)
	for program in $(PROGRAMS); do $(call build,$$program) || exit 1; done

check:
	.ci/run

$(archive):
	$(library)

$(programs):
	$(call build,$(@F))

install: $(archive) $(programs)
	$(INSTALL) -d '$(DESTDIR)$(INCLUDEDIR)' '$(DESTDIR)$(LIBDIR)' '$(DESTDIR)$(PKGCONFIGDIR)' '$(DESTDIR)$(BINDIR)' '$(DESTDIR)$(MANDIR)/man1' '$(DESTDIR)$(MANDIR)/man3'
	$(call put,644,include/jpeg_block.h,$(INCLUDEDIR))
	$(call put,644,$(archive),$(LIBDIR))
	sed -e 's|@PREFIX@|$(PREFIX)|' -e 's|@LIBDIR@|$(call below,$(LIBDIR))|' -e 's|@INCLUDEDIR@|$(call below,$(INCLUDEDIR))|' -e 's|@VERSION@|$(VERSION)|' packaging/jpeg_block.pc.in >'$(DESTDIR)$(PKGCONFIGDIR)/jpeg_block.pc'
	chmod 644 '$(DESTDIR)$(PKGCONFIGDIR)/jpeg_block.pc'
	$(call put,755,$(programs),$(BINDIR))
	$(call put,644,$(pages1),$(MANDIR)/man1)
	$(call put,644,$(pages3),$(MANDIR)/man3)

uninstall:
	$(call take,include/jpeg_block.h,$(INCLUDEDIR))
	$(call take,$(archive),$(LIBDIR))
	$(call take,jpeg_block.pc,$(PKGCONFIGDIR))
	$(call take,$(programs),$(BINDIR))
	$(call take,$(pages1),$(MANDIR)/man1)
	$(call take,$(pages3),$(MANDIR)/man3)

# for packaging/check
version:
	@echo $(VERSION)

# rt runs its own jobs
.NOTPARALLEL:
.PHONY: all check install uninstall version
