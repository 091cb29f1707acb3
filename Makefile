# Installs the planner with its scripts, manual pages and completions: make install PREFIX=/usr/local
# The installed program runs without this repository. `make test` runs the gate.
PREFIX ?= /usr/local
SCRIPTS = ask card compare delays look map odds slice trial walks
MODULES = $(notdir $(wildcard scripts/desk/*.py))
# Where the manual pages are below the folder `share`, and the completions for bash, zsh and fish, for the shell.
export MAN = man/man1
export BASH_PLACE = bash-completion/completions
export ZSH_PLACE = zsh/site-functions
export FISH_PLACE = fish/vendor_completions.d
# The folder of the installation, for the shell. Its text is taken as it is: it may have spaces, quotes and dollar signs.
export PREFIX_TEXT := $(value PREFIX)
export ROOT := $(value DESTDIR)$(value PREFIX)

.PHONY: all install uninstall prefix test

# The launcher proves and builds the program if necessary. Then the program refuses the empty command line, with status 2.
all:
	@./meat || [ $$? = 2 ]

prefix:
	@[ -n "$$PREFIX_TEXT" ] || { echo 'PREFIX is empty: name a folder, such as /usr/local' >&2; exit 1; }

install: prefix
	@[ -x out/meat ] || { echo 'run `make all` first: it proves and builds the program' >&2; exit 1; }
	install -d "$$ROOT/bin" "$$ROOT/lib/meat/desk" "$$ROOT/share/doc/meat"
	cd "$$ROOT/share" && install -d "$$MAN" "$$BASH_PLACE" "$$ZSH_PLACE" "$$FISH_PLACE"
	install -m 755 out/meat $(addprefix scripts/,$(SCRIPTS)) "$$ROOT/lib/meat"
	install -m 644 scripts/hint.sh scripts/meat.py "$$ROOT/lib/meat"
	install -m 644 $(addprefix scripts/desk/,$(MODULES)) "$$ROOT/lib/meat/desk"
	install -m 755 scripts/installed "$$ROOT/bin/meat"
	for name in $(SCRIPTS); do ln -sf "../lib/meat/$$name" "$$ROOT/bin/meat-$$name" || exit; done
	install -m 644 scripts/pages/meat.1 "$$ROOT/share/$$MAN/meat.1"
	install -m 644 scripts/pages/meat.bash "$$ROOT/share/$$BASH_PLACE/meat"
	install -m 644 scripts/pages/meat.zsh "$$ROOT/share/$$ZSH_PLACE/_meat"
	install -m 644 scripts/pages/scripts.zsh "$$ROOT/share/$$ZSH_PLACE/_meat_scripts"
	install -m 644 scripts/pages/meat.fish "$$ROOT/share/$$FISH_PLACE/meat.fish"
	for name in $(SCRIPTS); do \
	    scripts/pages/script_page "$$name" >"$$ROOT/share/$$MAN/meat-$$name.1" || exit; \
	    install -m 644 scripts/pages/scripts.bash "$$ROOT/share/$$BASH_PLACE/meat-$$name" || exit; \
	    install -m 644 scripts/pages/scripts.fish "$$ROOT/share/$$FISH_PLACE/meat-$$name.fish" || exit; \
	done
	install -m 644 docs/GUIDE.md docs/FORMATS.md "$$ROOT/share/doc/meat"

# Removes what `install` has made and nothing else; the folder of the planner only if it is then empty.
uninstall: prefix
	for name in meat $(addprefix meat-,$(SCRIPTS)); do rm -f "$$ROOT/bin/$$name" "$$ROOT/share/$$MAN/$$name.1" \
	    "$$ROOT/share/$$BASH_PLACE/$$name" "$$ROOT/share/$$FISH_PLACE/$$name.fish" || exit; done
	rm -f "$$ROOT/share/$$ZSH_PLACE/_meat" "$$ROOT/share/$$ZSH_PLACE/_meat_scripts"
	rm -f "$$ROOT/share/doc/meat/GUIDE.md" "$$ROOT/share/doc/meat/FORMATS.md"
	@[ ! -d "$$ROOT/share/doc/meat" ] || rmdir "$$ROOT/share/doc/meat" 2>/dev/null || true
	for name in meat hint.sh meat.py $(SCRIPTS) $(addprefix desk/,$(MODULES)); do rm -f "$$ROOT/lib/meat/$$name" || exit; done
	@[ ! -d "$$ROOT/lib/meat/desk" ] || rmdir "$$ROOT/lib/meat/desk" 2>/dev/null || true
	@[ ! -d "$$ROOT/lib/meat" ] || rmdir "$$ROOT/lib/meat" 2>/dev/null || echo "$$ROOT/lib/meat has other files, and stays"

test:
	.ci/run
