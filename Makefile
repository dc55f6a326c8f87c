# Builds debcheck, installs it with its manual, completion, schema and examples, and makes a Debian package of that.
# DESTDIR stands before each path, for packages.
PREFIX = /usr/local
DESTDIR =
# The checkout's own program is built first; another one, by program=PATH, is taken as it is.
built = crates/debcheck_program/out/debcheck_program
program = $(built)

bin = $(DESTDIR)$(PREFIX)/bin
share = $(DESTDIR)$(PREFIX)/share
# What the distribution installs has a folder of its own in zsh's path.
zsh = $(share)/zsh/$(if $(filter /usr,$(PREFIX)),vendor-completions,site-functions)
scripts = before-publishing debcheck-news
units = debcheck-news.service debcheck-news.timer debcheck-page.toml debcheck-page.service debcheck-page.timer

all:
	[ $(program) != $(built) ] || ./debcheck --version > /dev/null

# Each has a Debian package of its own.
parts = debcheck debcheck-tools debcheck-dose

install: $(parts:%=install-%)

install-debcheck: all
	install -D -m 755 $(program) $(bin)/debcheck
	strip --strip-all --remove-section=.comment --remove-section=.note $(bin)/debcheck
	install -D -m 644 docs/debcheck.1 $(share)/man/man1/debcheck.1
	install -D -m 644 docs/debcheck-report.5 $(share)/man/man5/debcheck-report.5
	install -D -m 644 completion/debcheck.bash $(share)/bash-completion/completions/debcheck
	install -D -m 644 completion/debcheck.zsh $(zsh)/_debcheck
	install -D -m 644 docs/report.schema.json $(share)/debcheck/report.schema.json

# The tools are Python and stand beside each other in a folder of their own.
install-debcheck-tools:
	install -D -m 755 tools/debcheck-archive $(bin)/debcheck-archive
	install -d -m 755 $(share)/debcheck-tools/debcheck_tools
	install -m 644 tools/debcheck_tools/*.py tools/debcheck_tools/*.sql $(share)/debcheck-tools/debcheck_tools
	install -d -m 755 $(share)/debcheck-tools/debcheck_tools/templates
	install -m 644 tools/debcheck_tools/templates/* $(share)/debcheck-tools/debcheck_tools/templates
	install -D -m 644 docs/debcheck-page.5 $(share)/man/man5/debcheck-page.5
	install -d -m 755 $(share)/doc/debcheck-tools/examples
	install -m 755 $(scripts:%=examples/%) $(share)/doc/debcheck-tools/examples
	install -m 644 $(units:%=examples/%) $(share)/doc/debcheck-tools/examples
	install -D -m 644 docs/debcheck-archive.1 $(share)/man/man1/debcheck-archive.1
	install -D -m 644 completion/debcheck-archive.bash $(share)/bash-completion/completions/debcheck-archive
	install -D -m 644 completion/debcheck-archive.zsh $(zsh)/_debcheck-archive
	install -D -m 644 docs/overview.schema.json $(share)/debcheck-tools/overview.schema.json

# dose's commands stand with their modules in a folder that is on no path, so that dose may be installed, too.
dose = $(DESTDIR)$(PREFIX)/lib/debcheck/dose
dose_modules = dose_* __init__ errors index index_files program sources stanza tag_file

install-debcheck-dose:
	install -d -m 755 $(dose)/debcheck_tools
	install -m 755 tools/dose-debcheck tools/dose-builddebcheck $(dose)
	install -m 644 $(dose_modules:%=tools/debcheck_tools/%.py) $(dose)/debcheck_tools
	install -D -m 644 docs/debcheck-dose.7 $(share)/man/man7/debcheck-dose.7
	install -D -m 644 packaging/debcheck-dose/README.Debian $(share)/doc/debcheck-dose/README.Debian

uninstall: $(parts:%=uninstall-%)

uninstall-debcheck-dose:
	rm -rf $(dose)
	rm -f $(share)/man/man7/debcheck-dose.7 $(share)/doc/debcheck-dose/README.Debian
	for folder in $(DESTDIR)$(PREFIX)/lib/debcheck $(share)/doc/debcheck-dose; do \
	    [ ! -d $$folder ] || rmdir --ignore-fail-on-non-empty $$folder; \
	done

uninstall-debcheck-tools:
	rm -f $(bin)/debcheck-archive $(share)/man/man1/debcheck-archive.1 $(zsh)/_debcheck-archive
	rm -f $(share)/bash-completion/completions/debcheck-archive
	rm -rf $(share)/debcheck-tools
	rm -f $(share)/man/man5/debcheck-page.5 $(addprefix $(share)/doc/debcheck-tools/examples/,$(scripts) $(units))
	for folder in $(share)/doc/debcheck-tools/examples $(share)/doc/debcheck-tools; do \
	    [ ! -d $$folder ] || rmdir --ignore-fail-on-non-empty $$folder; \
	done

uninstall-debcheck:
	rm -f $(bin)/debcheck $(share)/man/man1/debcheck.1 $(share)/man/man5/debcheck-report.5
	rm -f $(share)/bash-completion/completions/debcheck $(zsh)/_debcheck
	rm -f $(share)/debcheck/report.schema.json
	[ ! -d $(share)/debcheck ] || rmdir --ignore-fail-on-non-empty $(share)/debcheck

deb: all
	packaging/make_deb $(program)

.PHONY: all install uninstall deb $(parts:%=install-%) $(parts:%=uninstall-%)
