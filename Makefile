# make            the proved archive for C, tools/vbvreport and tools/cbrsend
# make install    these, the header, the texts of refusals, a pkg-config file, man pages and the documents that these name,
#                 under PREFIX (below DESTDIR)
# make uninstall  removes what that put there
# make test-c     the C programs under tests/ and those in README.md, and vbvcheck, which ./test runs
# make sanitized  all of these with the address and undefined-behaviour sanitizers, for tests/sanitized
# make clean      removes what C was built to; proofs stay
WARNINGS = -Wall -Wextra -Wpedantic -Wshadow -Wconversion -Wsign-conversion -Wcast-qual -Wwrite-strings \
    -Wstrict-prototypes -Wmissing-prototypes -Wformat=2 -Wvla -Werror
CFLAGS = -std=c99 $(WARNINGS) -O2 -Iinclude
LIB = target/staticlib/libhipokuta.a
# The searches for start codes by themselves, for oracle/scans and bench/run.
SEARCHES = target/staticlib/libsearches.a
PROVED = $(shell find crates crates.txt -name out -prune -o \( -name '*.rt' -o -name '*.antt' -o -name crates.txt \) -print)
HEADERS = include/hipokuta.h $(wildcard tools/*.h tests/c/*.h)
VERSION = $(shell sed -n 's/^.define HIPOKUTA_VERSION "\(.*\)"$$/\1/p' include/hipokuta.h)

# The tools take transport and program streams apart by libavformat, where it is installed; `make AVFORMAT=` leaves it out.
AVFORMAT = $(shell pkg-config --exists libavformat libavcodec libavutil 2>/dev/null && echo libavformat libavcodec libavutil)
ifneq ($(strip $(AVFORMAT)),)
AVFORMAT_CFLAGS := -DHAVE_AVFORMAT $(patsubst -I%,-isystem %,$(shell pkg-config --cflags $(AVFORMAT)))
AVFORMAT_LIBS := $(shell pkg-config --libs $(AVFORMAT))
endif

# The sources of each C program.
reading = tools/stream.c tools/input.c tools/container.c tools/look.c tools/cadence.c tools/shell.c c/refusal_text.c
vbvreport = tools/vbvreport.c tools/plot.c tools/label.c tools/report.c tools/place.c tools/caution.c tools/words.c \
    tools/script.c $(reading)
cbrsend = tools/cbrsend.c tools/request.c tools/advice.c tools/sending.c tools/split.c tools/why.c tools/outfile.c \
    tools/progress.c tools/report.c tools/caution.c tools/look.c tools/place.c $(reading)
entries = tests/c/entries.c tests/c/places.c c/refusal_text.c
writing = tests/c/channel.c tests/c/rules.c tests/c/places.c tools/cadence.c c/refusal_text.c
sender = tests/c/sender.c $(writing)
configs = tests/c/configs.c $(writing)
film = tests/c/film.c $(writing)
variable = tests/c/variable.c $(writing)
texts = tests/c/texts.c c/refusal_text.c
structs = tests/c/structs.c
stamp = tests/c/stamp.c
drawings = tests/c/drawings.c tools/plot.c tools/label.c
readme_check = target/tests/readme_check.c c/refusal_text.c
readme_send = target/tests/readme_send.c c/refusal_text.c
fuzz-vbvreport = tests/c/fuzz.c $(vbvreport)
fuzz-cbrsend = tests/c/fuzz.c $(cbrsend)

TOOLS = tools/vbvreport tools/cbrsend
PROGRAMS = entries sender configs film variable texts structs stamp drawings readme_check readme_send
TESTS = $(addprefix target/tests/,$(PROGRAMS) vbvreport)
SANITIZED_TOOLS = $(addprefix target/sanitized/,$(notdir $(TOOLS)) fuzz-vbvreport fuzz-cbrsend)
SANITIZED = $(SANITIZED_TOOLS) $(addprefix target/sanitized/,$(PROGRAMS))

all: $(LIB) $(TOOLS)
test-c: $(TESTS) target/bin/vbvcheck
sanitized: $(SANITIZED)

# Each of the thin crate that gives the library of its name to C.
$(LIB) $(SEARCHES): target/staticlib/lib%.a: $(PROVED)
	@mkdir -p $(@D)
	cd crates/$*_c && rt lib
	cp crates/$*_c/out/lib$*_c.a $@

# A proved program: it stays where it was run, here on nothing.
target/bin/%: $(PROVED)
	@mkdir -p $(@D)
	cd crates/$* && rt run </dev/null >/dev/null
	cp crates/$*/out/$* $@

# The programs that stand in README.md, the first and the second.
target/tests/readme_check.c: nth = 1
target/tests/readme_send.c: nth = 2
target/tests/readme_check.c target/tests/readme_send.c: README.md
	@mkdir -p $(@D)
	awk -v nth=$(nth) '$$0 == "```" { inside = 0 } inside; $$0 == "```c" { inside = ++seen == nth }' README.md >$@

$(TOOLS) $(SANITIZED_TOOLS): CFLAGS += $(AVFORMAT_CFLAGS)
$(TOOLS) $(SANITIZED_TOOLS): LIBS = $(AVFORMAT_LIBS)
target/sanitized/fuzz-%: CFLAGS += -Dmain=tool_main -Wno-missing-prototypes
$(TESTS): CFLAGS += -Itools -gdwarf-4
$(SANITIZED): CFLAGS += -Itools -g -fsanitize=address,undefined -fno-sanitize-recover=all
.SECONDEXPANSION:
$(TOOLS) $(TESTS) $(SANITIZED): $$($$(notdir $$@)) $(HEADERS) $(LIB)
	@mkdir -p $(@D)
	$(CC) $(CFLAGS) $(filter %.c,$^) $(LIB) $(LIBS) -o $@

# What is installed, by the folder below PREFIX that it goes to.
PREFIX = /usr/local
TO = $(DESTDIR)$(PREFIX)
OWN_FOLDERS = share/hipokuta share/doc/hipokuta
FOLDERS = bin lib lib/pkgconfig include share/man/man1 share/man/man3 $(OWN_FOLDERS)
ENTRIES = vbv_check vbv_report vbv_patch_delay cbr_create cbr_create_config cbr_offer cbr_withdraw vbv_refusal_name vbv_refusal_text
bin = $(TOOLS)
lib = $(LIB)
lib/pkgconfig = target/hipokuta.pc
include = include/hipokuta.h
share/hipokuta = c/refusal_text.c
share/man/man1 = man/vbvreport.1 man/cbrsend.1
share/man/man3 = man/hipokuta.3 $(ENTRIES:%=target/man/%.3)
share/doc/hipokuta = NOTICE docs/LAYOUT.md docs/REFUSALS.md docs/DIFFERENCES.md docs/SENDING.md

# A page that leads to the library's.
target/man/%.3:
	@mkdir -p $(@D)
	echo '.so man3/hipokuta.3' >$@

install: all $(share/man/man3)
	$(if $(word 2,$(PREFIX)),@echo "make: PREFIX has a space in it: what pkg-config prints then has to be unquoted by eval" >&2)
	sed 's,@PREFIX@,$(PREFIX),; s,@VERSION@,$(VERSION),' hipokuta.pc.in >target/hipokuta.pc
	install -d $(FOLDERS:%="$(TO)/%")
	$(foreach folder,$(FOLDERS),install -m $(if $(filter bin,$(folder)),755,644) $($(folder)) "$(TO)/$(folder)" &&) :

uninstall:
	rm -f $(foreach folder,$(FOLDERS),$(patsubst %,"$(TO)/$(folder)/%",$(notdir $($(folder)))))
	for own in $(OWN_FOLDERS:%="$(TO)/%"); do if [ -d "$$own" ]; then rmdir "$$own"; fi; done

clean:
	rm -rf $(TOOLS) target/man target/tests target/sanitized target/bench $(LIB) $(SEARCHES)

.DELETE_ON_ERROR:
.PHONY: all test-c sanitized install uninstall clean
