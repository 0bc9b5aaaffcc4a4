# The commands of the README. `make lib`, `make plate` and `make install` prove the library first, where its sources
# have changed.
.PHONY: all lib plate settle install uninstall always example test quick

PREFIX = /usr/local
DESTDIR =
CFLAGS = -O2
LDFLAGS =
flags = -std=c11 -Wall -Wextra -Wpedantic -Iinclude
version := $(shell sed -n 's/^#define PM_VERSION_TEXT "\(.*\)"/\1/p' include/platemaker.h)
soname := libplatemaker.so.$(firstword $(subst ., ,$(version)))
proved := target/staticlib/libplatemaker.a
shared := target/lib/libplatemaker.so.$(version)
sources := $(shell find crates -name out -prune -o -name '*.rt' -print -o -name '*.antt' -print) crates.txt

all: lib plate

# the library, static and shared, and what pkg-config reads, in target/lib
lib: target/lib/libplatemaker.a $(shared) target/lib/platemaker.pc

# the crates that it knows are proved first; a line for each as it is checked, and all that the prover says in target/library.log
$(proved): $(sources)
	@mkdir -p target/staticlib
	@echo 'proving the library, which takes some minutes the first time'
	@{ cd crates/platemaker && rt lib; } 2>&1 | tee target/library.log | sed -un 's/^rt: chose .* for \(.*\)/checking \1/p'
	@grep -q '^logic=proved .* target=' target/library.log || { cat target/library.log; exit 1; }
	@cp crates/platemaker/out/libplatemaker.a $@
	@touch $@

target/lib/libplatemaker.a: $(proved)
	@mkdir -p target/lib
	@cp $(proved) $@

# the names by which it is found are copies here, since `rt ci` takes no link in a checkout; `make install` makes links
$(shared): $(proved)
	@mkdir -p target/lib
	@echo '{ global: pm_*; local: *; };' >target/lib/exports
	$(CC) -shared $(LDFLAGS) -Wl,-soname,$(soname) -Wl,--version-script,target/lib/exports -Wl,-z,defs -Wl,-z,text \
		-Wl,-z,noexecstack -Wl,--whole-archive $(proved) -Wl,--no-whole-archive -o $@
	@cp -f $@ target/lib/$(soname)
	@cp -f $@ target/lib/libplatemaker.so

# written each time, since PREFIX may be another one
target/lib/platemaker.pc: always
	@mkdir -p target/lib
	@printf '%s\n' 'prefix=$(PREFIX)' 'includedir=$${prefix}/include' 'libdir=$${prefix}/lib' '' 'Name: platemaker' \
		'Description: turns gray into a one-colour plate of dots' 'Version: $(version)' \
		'Cflags: -I"$${includedir}"' 'Libs: -L"$${libdir}" -lplatemaker' >$@.new
	@mv -f $@.new $@

# the command `plate`, in target/bin
plate: target/bin/plate

target/bin/plate: $(wildcard command/*.c command/*.h) include/platemaker.h $(proved)
	@mkdir -p target/bin
	$(CC) $(flags) $(CFLAGS) $(LDFLAGS) command/*.c $(proved) -o $@

# into PREFIX, below the folder DESTDIR where one is given; the program `settle` too where `make example` has built it.
# The module for Python is put in share/platemaker, which no Python searches of itself: name it in PYTHONPATH.
to = $(DESTDIR)$(PREFIX)

install: lib plate
	@case "$(PREFIX)/" in /*) ;; *) echo 'PREFIX has to begin with /' >&2; exit 1 ;; esac
	@install -d "$(to)/bin" "$(to)/include" "$(to)/lib/pkgconfig" "$(to)/share/man/man1" "$(to)/share/platemaker"
	install -m 755 target/bin/plate "$(to)/bin"
	@if [ -f target/bin/settle ]; then install -m 755 target/bin/settle "$(to)/bin"; fi
	install -m 644 include/platemaker.h "$(to)/include"
	install -m 644 target/lib/libplatemaker.a "$(to)/lib"
	install -m 755 $(shared) "$(to)/lib"
	@ln -sf $(notdir $(shared)) "$(to)/lib/$(soname)"
	@ln -sf $(soname) "$(to)/lib/libplatemaker.so"
	install -m 644 target/lib/platemaker.pc "$(to)/lib/pkgconfig"
	install -m 644 man/plate.1 "$(to)/share/man/man1"
	install -m 644 python/platemaker.py "$(to)/share/platemaker"

# what `make install` with the same PREFIX and DESTDIR has put there, and of the folders share/platemaker alone
uninstall:
	rm -f "$(to)/bin/plate" "$(to)/bin/settle" "$(to)/include/platemaker.h" "$(to)/lib/libplatemaker.a" \
		"$(to)/lib/$(notdir $(shared))" "$(to)/lib/$(soname)" "$(to)/lib/libplatemaker.so" \
		"$(to)/lib/pkgconfig/platemaker.pc" "$(to)/share/man/man1/plate.1" "$(to)/share/platemaker/platemaker.py"
	@rmdir "$(to)/share/platemaker" 2>/dev/null || true

# proves and builds the program `settle` and the command `plate`; checks what `settle` prints of the sheet of a small relief, and
# shows the plate that `plate` makes of it
example: target/bin/settle target/bin/plate
	@echo 'settle is proved and plate is built: the plate of examples/knolls.sheet'
	@target/bin/settle <examples/knolls.sheet | target/bin/plate check
	@target/bin/plate settle -o target/knolls.pbm examples/knolls.sheet
	@target/bin/plate show target/knolls.pbm

# the program `settle`, in target/bin
settle: target/bin/settle

# proves and builds a program of crates/, which runs once as it is built, on no input
target/bin/settle target/bin/examples: target/bin/%: $(sources)
	@mkdir -p target/bin
	@echo 'proving $*'
	@{ cd crates/$* && rt run </dev/null; } >target/$*.log 2>&1 || { cat target/$*.log; exit 1; }
	@cp crates/$*/out/$* $@
	@touch $@

# every test there is; the last line is 'N passed, M failed'
test:
	@tests/run

# every test but `rt ci`: what has changed is proved again, and no wrong program is tried
quick:
	@tests/run --quick
