# `make install` installs the tool with its man pages, completions, service unit and examples. PREFIX and DESTDIR as usual.
# `make package` makes a Debian package in target/package.
PREFIX ?= /usr/local
SYSCONFDIR ?= /etc
ZSHDIR ?= $(PREFIX)/share/zsh/site-functions
PROGRAM ?= target/tool/release/mooringeye
share = $(DESTDIR)$(PREFIX)/share

.PHONY: all install package

all: $(PROGRAM)

$(PROGRAM):
	bin/mooringeye version

install: $(PROGRAM)
	install -D -m 755 $(PROGRAM) $(DESTDIR)$(PREFIX)/bin/mooringeye
	$(PROGRAM) generate man $(share)/man/man1
	rm -rf target/completions
	$(PROGRAM) generate completions target/completions
	install -D -m 644 target/completions/mooringeye.bash $(share)/bash-completion/completions/mooringeye
	install -D -m 644 target/completions/_mooringeye $(DESTDIR)$(ZSHDIR)/_mooringeye
	install -D -m 644 target/completions/mooringeye.fish $(share)/fish/vendor_completions.d/mooringeye.fish
	install -d $(DESTDIR)$(PREFIX)/lib/systemd/system
	sed 's,/usr/local/bin,$(PREFIX)/bin,' examples/mooringeye.service >$(DESTDIR)$(PREFIX)/lib/systemd/system/mooringeye.service
	install -D -m 644 examples/mooringeye.sysusers $(DESTDIR)$(PREFIX)/lib/sysusers.d/mooringeye.conf
	[ -f $(DESTDIR)$(SYSCONFDIR)/default/mooringeye ] || \
		install -D -m 644 examples/mooringeye.default $(DESTDIR)$(SYSCONFDIR)/default/mooringeye
	install -d $(share)/mooringeye/samples $(share)/doc/mooringeye
	cp -r examples/historian examples/sources $(share)/mooringeye/
	install -m 644 samples/plant.txt samples/plant.expected $(share)/mooringeye/samples
	install -m 644 README.md CONTRIBUTING.md CHANGELOG.md LICENCE-NOTE.md $(share)/doc/mooringeye
	cp -r docs $(share)/doc/mooringeye/

package:
	bin/package
