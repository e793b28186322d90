# The libraries for C, as any library is taken up:
#
#   make                      makes them for all machines: proves the crates first, with Rattle's command rt
#   make install PREFIX=DIR   header, libraries by machine, a pkg-config file for each, and a list of what was built, with sizes and hashes
#   make uninstall PREFIX=DIR
#
# DESTDIR is put before PREFIX, for who makes a package. docs/FIRMWARE.md names the machines, CHANGES.md says what the version means.

PREFIX = /usr/local
DESTDIR =
MACHINES = x86-64 aarch64 armv7 cortex-m0plus cortex-m3 cortex-m4 cortex-m4hf cortex-m33 cortex-m33hf

.PHONY: all install uninstall

all:
	tools/libraries

install: all
	tools/install-libraries "$(DESTDIR)$(PREFIX)" $(MACHINES)

uninstall:
	rm -f "$(DESTDIR)$(PREFIX)/include/nurrispane.h"
	rm -f "$(DESTDIR)$(PREFIX)/lib/pkgconfig/"nurrispane.pc "$(DESTDIR)$(PREFIX)/lib/pkgconfig/"nurrispane-*.pc
	rm -rf "$(DESTDIR)$(PREFIX)/lib/nurrispane" "$(DESTDIR)$(PREFIX)/share/nurrispane"
