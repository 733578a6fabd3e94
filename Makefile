# The heap as a library for C: dist/ has libbrc.a, libbrc.so, brc.h, and files for pkg-config and CMake.
#
#   make                   proves what isn't proved yet, and builds dist/
#   make check             compiles the header, compares it with the library, and runs the clients
#   make try CLIENT=C      without proofs, in a minute or two: out/try/libbrc-unproved.a, and the client C over it (clients/mini.c, if none is
#                          given; ARGS are its words; CHECKS=1 leaves in what stops a fault of the heap itself)
#   make install PREFIX=P  copies dist/ to P: include, lib, lib/pkgconfig, lib/cmake (PREFIX is /usr/local, if not given)
#
# DESTDIR is put before PREFIX, for those who make packages. CC is the compiler of the clients and of libbrc.so.

PREFIX ?= /usr/local
CC ?= cc
export CC

.PHONY: dist check try install

dist:
	.ci/c dist

check:
	.ci/c check

try:
	@.ci/try_c $(if $(CHECKS),--checks) $(if $(CLIENT),$(CLIENT) $(ARGS))

install:
	@test -f dist/lib/libbrc.a || { echo "install: there is no dist/: make"; exit 1; }
	install -d "$(DESTDIR)$(PREFIX)/include" "$(DESTDIR)$(PREFIX)/lib"
	install -m 644 dist/include/brc.h "$(DESTDIR)$(PREFIX)/include/"
	cp -RP dist/lib/. "$(DESTDIR)$(PREFIX)/lib/"
