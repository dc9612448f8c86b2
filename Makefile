# Builds the library and the lister, and installs them for programs in C: make install PREFIX=/usr/local, make uninstall. The tool for
# people is apart, since it needs cargo and the crates that it is made of: make install-tool, make uninstall-tool.
PREFIX = /usr/local
DESTDIR =

LIBRARY = target/staticlib/libzhitomrak.a
LISTER = target/bin/lister
TOOL = target/tool/zhitomrak
DOCS = docs/REFUSALS.md docs/FORMAT.md CHANGELOG.md LICENSE
TO = $(DESTDIR)$(PREFIX)

.PHONY: all library lister tool install uninstall install-tool uninstall-tool
.NOTPARALLEL:

all: library lister

# What is missing, or older than the text of the crates, is proved and built.
library:
	@if [ ! -e $(LIBRARY) ] || [ -n "$$(find crates crates.txt -name out -prune -o -newer $(LIBRARY) -print)" ]; then \
		echo "Proves and builds $(LIBRARY); where nothing is proved yet that takes some minutes."; \
	fi
	@rust/library tell

lister:
	@if [ ! -e $(LISTER) ] || [ -n "$$(find crates crates.txt -name out -prune -o -newer $(LISTER) -print)" ]; then \
		echo "Proves and builds $(LISTER)."; \
	fi
	@tests/program lister

tool: library
	@rust/tool/cargo build

# The version is the header's.
install: all
	install -d "$(TO)/bin" "$(TO)/include" "$(TO)/lib/pkgconfig" "$(TO)/share/man/man1" "$(TO)/share/man/man3" \
		"$(TO)/share/doc/zhitomrak"
	install -m 755 $(LISTER) "$(TO)/bin/zhitomrak-lister"
	install -m 644 include/zhitomrak.h "$(TO)/include/zhitomrak.h"
	install -m 644 $(LIBRARY) "$(TO)/lib/libzhitomrak.a"
	version=$$(sed -n 's/^#define ZHITOMRAK_VERSION_TEXT "\(.*\)"$$/\1/p' include/zhitomrak.h) && \
		sed -e 's|@PREFIX@|$(PREFIX)|' -e "s|@VERSION@|$$version|" zhitomrak.pc.in >"$(TO)/lib/pkgconfig/zhitomrak.pc"
	chmod 644 "$(TO)/lib/pkgconfig/zhitomrak.pc"
	install -m 644 man/zhitomrak-lister.1 "$(TO)/share/man/man1/zhitomrak-lister.1"
	install -m 644 man/zhitomrak.3 "$(TO)/share/man/man3/zhitomrak.3"
	install -m 644 $(DOCS) "$(TO)/share/doc/zhitomrak"

uninstall:
	rm -f "$(TO)/bin/zhitomrak-lister" "$(TO)/include/zhitomrak.h" "$(TO)/lib/libzhitomrak.a" "$(TO)/lib/pkgconfig/zhitomrak.pc" \
		"$(TO)/share/man/man1/zhitomrak-lister.1" "$(TO)/share/man/man3/zhitomrak.3"
	rm -rf "$(TO)/share/doc/zhitomrak"

install-tool: tool
	install -d "$(TO)/bin" "$(TO)/share/man/man1" "$(TO)/share/doc/zhitomrak-tool"
	install -m 755 $(TOOL) "$(TO)/bin/zhitomrak"
	install -m 644 man/zhitomrak.1 "$(TO)/share/man/man1/zhitomrak.1"
	install -m 644 samples/station.toml docs/REFUSALS.md docs/FORMAT.md LICENSE "$(TO)/share/doc/zhitomrak-tool"

uninstall-tool:
	rm -f "$(TO)/bin/zhitomrak" "$(TO)/share/man/man1/zhitomrak.1"
	rm -rf "$(TO)/share/doc/zhitomrak-tool"
