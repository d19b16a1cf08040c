# make check      runs the gate, and keeps the commit and what it prints in out/gate.log
# make install    puts the program, its man page, completions and documents under DESTDIR and PREFIX
# make uninstall  takes them away
# make dist       makes the archive of a release in out/, after make check
PREFIX = /usr/local
DESTDIR =
PROGRAM = crates/shset/out/shset
BIN = $(DESTDIR)$(PREFIX)/bin
SHARE = $(DESTDIR)$(PREFIX)/share
DOC = $(SHARE)/doc/shset

all $(PROGRAM):
	./shset --version

check:
	mkdir -p out && rm -f out/gate.log
	{ git rev-parse HEAD && .ci/run; } >out/gate.part 2>&1 || { tail -n 20 out/gate.part; exit 1; }
	mv out/gate.part out/gate.log && tail -n 20 out/gate.log

install: $(PROGRAM)
	install -d $(BIN) $(SHARE)/man/man1 $(SHARE)/bash-completion/completions $(SHARE)/zsh/site-functions $(SHARE)/fish/vendor_completions.d
	install -d $(DOC)/docs/findings $(DOC)/docs/notes $(DOC)/docs/reference
	install -m 755 $(PROGRAM) $(BIN)/shset
	install -m 755 contrib/shset-each $(BIN)/shset-each
	install -m 644 docs/shset.1 $(SHARE)/man/man1/shset.1
	install -m 644 contrib/completions/shset.bash $(SHARE)/bash-completion/completions/shset
	install -m 644 contrib/completions/_shset $(SHARE)/zsh/site-functions/_shset
	install -m 644 contrib/completions/shset.fish $(SHARE)/fish/vendor_completions.d/shset.fish
	install -m 644 README.md CHANGELOG.md $(DOC)
	install -m 644 docs/*.md $(DOC)/docs
	for folder in findings notes reference; do install -m 644 docs/$$folder/*.md $(DOC)/docs/$$folder || exit; done

uninstall:
	rm -f $(BIN)/shset $(BIN)/shset-each $(SHARE)/man/man1/shset.1 $(SHARE)/bash-completion/completions/shset
	rm -f $(SHARE)/zsh/site-functions/_shset $(SHARE)/fish/vendor_completions.d/shset.fish
	rm -rf $(DOC)

dist: check
	ci/dist out/gate.log out

.PHONY: all check install uninstall dist
