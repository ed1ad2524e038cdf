# Installs the archive, the headers, joistdenim.pc, the command, its manual page and completions:
#
#   make && sudo make install                  into /usr/local
#   make install PREFIX=/opt/joistdenim        into another folder
#   make uninstall PREFIX=/opt/joistdenim
#
# DESTDIR, for whoever makes a package, comes before PREFIX and stands in no file. An archive that is there is taken as
# it is. Nothing is tested here: that is .ci/run.
PREFIX = /usr/local
DESTDIR =

archive = target/staticlib/libjoistdenim.a
command = rust/target/release/joistdenim
version = $(shell sed -n 's/^.define JD_VERSION_[A-Z]* //p' include/joistdenim.h | paste -sd .)
to = $(DESTDIR)$(PREFIX)

# Mode, file, and its name in PREFIX; completions where there are any.
where_there = $(if $(wildcard $1),644 $1 $2)
files = \
	644 $(archive) lib/libjoistdenim.a \
	$(foreach header,$(wildcard include/*.h),644 $(header) $(header)) \
	644 target/joistdenim.pc lib/pkgconfig/joistdenim.pc \
	755 $(command) bin/joistdenim \
	644 docs/joistdenim.1 share/man/man1/joistdenim.1 \
	$(call where_there,docs/completions/joistdenim.bash,share/bash-completion/completions/joistdenim) \
	$(call where_there,docs/completions/_joistdenim,share/zsh/site-functions/_joistdenim) \
	$(call where_there,docs/completions/joistdenim.fish,share/fish/vendor_completions.d/joistdenim.fish)

ifneq ($(words $(PREFIX))$(filter-out /%,$(PREFIX)),1)
$(error PREFIX is '$(PREFIX)': give a path that begins with / and has no space)
endif

all: $(archive) $(command)

$(archive):
	@command -v rt >/dev/null || { echo "No $@: it is made by rt, the Rattle toolchain, or put there by you" >&2; exit 1; }
	tools/build joistdenim

# The command is linked with the archive that is installed, whatever the environment says. Where cargo finds nothing to
# do, it leaves the old time, and make would ask it again.
$(command): export JOISTDENIM_LIB_DIR = $(CURDIR)/target/staticlib
$(command): $(archive) $(shell find rust/command rust/joistdenim rust/Cargo.* -type f)
	cargo build --manifest-path rust/command/Cargo.toml --target-dir rust/target --offline --locked --release
	@touch $@

# Made each time, since PREFIX may be another.
target/joistdenim.pc: $(archive) always
	@rm -f $@
	@printf '%s\n' >$@ 'prefix=$(PREFIX)' 'libdir=$${prefix}/lib' 'includedir=$${prefix}/include' '' \
		'Name: joistdenim' 'Description: tables that rename keys of 0 to 64 bytes, proved' 'Version: $(version)' \
		'Cflags: -I$${includedir}' 'Libs: -L$${libdir} -ljoistdenim'

install: all target/joistdenim.pc
	@set -e -- $(files); while [ $$# -gt 0 ]; do \
		install -D -m "$$1" "$$2" "$(to)/$$3"; echo "$(to)/$$3"; shift 3; done

# Folders that are empty afterwards are removed, but not those of the system.
systems = $(filter /usr /usr/local,$(patsubst %/,%,$(PREFIX)))
uninstall:
	@set -e -- $(files); while [ $$# -gt 0 ]; do folder=$${3%/*}; rm -f "$(to)/$$3"; \
		[ -n "$(systems)" ] || [ ! -d "$(to)/$$folder" ] || \
		(cd "$(to)" && rmdir -p --ignore-fail-on-non-empty "$$folder"); shift 3; done

always:

.PHONY: all install uninstall always
