# Installs the command, with the program that is built: make install [PREFIX=/usr/local] [DESTDIR=]. `make wheel` makes a wheel
# of the package, and `make uninstall` removes what was installed. The program is built by a call of pyc.sh, and not here.
PREFIX = /usr/local
DESTDIR =
PYTHON = python3

to = $(DESTDIR)$(PREFIX)
lib = $(to)/lib/pyc
share = $(to)/share
program = crates/pyc/out/pyc
pyc = $(PYTHON) -I -S python/pyc/__main__.py

.PHONY: all install uninstall wheel is-built

all:
	@echo 'make install [PREFIX=/usr/local], make uninstall, make wheel; sh pyc.sh FILE.py proves and builds the program'

is-built:
	@test -x $(program) || { echo 'make: the program is not built: sh pyc.sh FILE.py proves and builds it' >&2; exit 1; }

install: is-built
	rm -rf '$(lib)'
	mkdir -p '$(to)/bin' '$(lib)/python/pyc/bin' '$(share)/man/man1' '$(share)/doc/pyc' \
	    '$(share)/bash-completion/completions' '$(share)/zsh/site-functions' '$(share)/fish/vendor_completions.d'
	cd python && find pyc -name __pycache__ -prune -o -type f ! -path 'pyc/bin/*' -print | while read -r file; do \
	    mkdir -p "$(lib)/python/$${file%/*}" && install -m 644 "$$file" "$(lib)/python/$$file" || exit; done
	install -m 644 VERSION '$(lib)/python/pyc/VERSION'
	install -m 755 $(program) '$(lib)/python/pyc/bin/pyc'
	if [ -e $(program).stamp ]; then install -m 644 $(program).stamp '$(lib)/python/pyc/bin/pyc.stamp'; fi
	install -m 755 pyc.sh '$(lib)/pyc.sh'
	ln -sf ../lib/pyc/pyc.sh '$(to)/bin/pyc'
	$(pyc) manual >'$(share)/man/man1/pyc.1'
	$(pyc) completions bash >'$(share)/bash-completion/completions/pyc'
	$(pyc) completions zsh >'$(share)/zsh/site-functions/_pyc'
	$(pyc) completions fish >'$(share)/fish/vendor_completions.d/pyc.fish'
	install -m 644 README.md LICENSE docs/*.md '$(share)/doc/pyc'
	-$(PYTHON) -m compileall -q '$(lib)/python' >/dev/null

uninstall:
	rm -rf '$(lib)' '$(share)/doc/pyc'
	rm -f '$(to)/bin/pyc' '$(share)/man/man1/pyc.1' '$(share)/bash-completion/completions/pyc' \
	    '$(share)/zsh/site-functions/_pyc' '$(share)/fish/vendor_completions.d/pyc.fish'

wheel: is-built
	$(PYTHON) -B python/backend.py dist
