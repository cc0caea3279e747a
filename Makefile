# Installs the files of release/ and builds nothing. `make install PREFIX=/usr/local`, and `make uninstall`
# with the same words.
PREFIX ?= /usr/local
DESTDIR ?=

.PHONY: all install uninstall

all:
	@echo 'nothing to build: make install PREFIX=/usr/local'

install uninstall:
	scripts/install $@ '$(DESTDIR)$(PREFIX)' '$(PREFIX)'
