# `make` builds geos, and prints its path. `make install` puts geos, its man pages, completions for bash, zsh and fish, and the documents below
# PREFIX, all of it below DESTDIR if one is given. `make install-library` puts the library for C, C++, Rust and Python there, and these
# documents. `make uninstall` removes what these two have installed. `make dist` writes an archive and a Debian package into out/dist.
# `make laboratory` writes a page that runs the library in a browser, and prints its path.
PREFIX = /usr/local
DESTDIR =
# The program that is installed; if none is given, `./build geos` says which.
GEOS =
# The folder with the library that is installed; if none is given, `library/make.sh` makes it.
LIBRARY =

root = $(DESTDIR)$(PREFIX)
lists = share/doc/takhvoi

.PHONY: all install install-library uninstall dist laboratory

all:
	@./build geos

install:
	@program='$(GEOS)'; [ -n "$$program" ] || program=$$(./build geos) || exit; \
	made=$$(mktemp -d) || exit; trap 'rm -rf "$$made"' EXIT; \
	install/program.sh "$$program" "$$made" && install/documents.sh "$$made" && \
	install/place.sh "$$made" '$(root)' $(lists)/installed-program

install-library:
	@made=$$(mktemp -d) || exit; trap 'rm -rf "$$made"' EXIT; \
	LIBRARY='$(LIBRARY)' library/install.sh "$$made" && install/documents.sh "$$made" && \
	install/place.sh "$$made" '$(root)' $(lists)/installed-library

uninstall:
	@install/place.sh --remove '$(root)' $(lists)/installed-program $(lists)/installed-library

dist:
	@GEOS='$(GEOS)' LIBRARY='$(LIBRARY)' install/dist.sh out/dist

laboratory:
	@made=$$(mktemp -d) || exit; trap 'rm -rf "$$made"' EXIT; mkdir -p out/laboratory && \
	library/wasm.sh "$$made/takhvoi.wasm" && python3 tools/laboratory.py "$$made/takhvoi.wasm" "$$made/index.html" && \
	mv "$$made/index.html" out/laboratory/index.html && echo "$$PWD/out/laboratory/index.html"
