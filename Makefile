# Builds, installs, archives and tests Vernierorb. The work is done by tools/build, tools/install, tools/dist and
# .ci/run; docs/INSTALL.md has the variables. For GNU make.

.PHONY: all install uninstall dist check help
.DEFAULT_GOAL := all

# those that are named on the command line, and DESTDIR of the environment too; tools/install has what they are else
names = DESTDIR prefix exec_prefix bindir libexecdir libdir includedir datarootdir datadir mandir docdir pkgconfigdir
is_named = $(filter command line,$(origin $(1)))$(if $(filter DESTDIR,$(1)),$(filter environment,$(origin $(1))))
named = $(foreach name,$(names),$(if $(call is_named,$(name)),'$(name)=$(subst ','\'',$($(name)))'))

all:
	@tools/build all

install: all
	@tools/install install $(named)

uninstall:
	@tools/install uninstall $(named)

dist:
	@tools/dist

check:
	@.ci/run

help:
	@echo 'make             proves and builds every program and library, where that is not done yet'
	@echo 'make install     installs them: prefix=/usr/local DESTDIR= and others, which tools/install --help lists'
	@echo 'make uninstall   removes what was installed, with the same words'
	@echo 'make dist        makes the archive of this release, vernierorb-'"$$(cat VERSION)"'.tar.gz'
	@echo 'make check       runs every test: proofs, must-fail edits, C, Rust and sessions'
	@echo 'make help        this'
