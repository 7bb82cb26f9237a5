# The targets that people expect; each only calls a script.
#   make                  proves and builds the library and the sheet program
#   make check            runs all tests
#   make install          installs below PREFIX, with DESTDIR put before it
#   make uninstall        removes what was installed there
#   make clean            removes what was built
PREFIX = /usr/local
DESTDIR =
export DESTDIR

all:
	tools/made library
	tools/made sheet

check:
	./test

install:
	tools/install "$(PREFIX)"

uninstall:
	tools/install --uninstall "$(PREFIX)"

clean:
	rm -rf target crates/*/out

.PHONY: all check install uninstall clean
