# For people. The gate of the repository is `rt ci`.

PREFIX ?= /usr/local
PROGRAM := crates/rtspgate/out/rtspgate
REPLAY := replay rtsp://gate.example rtsp://media.example
# How many crates are proved beside each other: one for each processor, where each has 5 GB of free memory. `make JOBS=1` needs
# the least.
JOBS ?= $(shell awk -v most=$$(nproc) '/^MemAvailable/ { n = int($$2 / 5000000); print n < 1 ? 1 : n < most ? n : most }' /proc/meminfo)
SOURCES := crates.txt $(shell find crates -name out -prune -o \( -name '*.rt' -o -name '*.antt' \) -print)
EXAMPLES := sessions players cameras options describe
# What tools/transcript imports.
PARTS := accounts.py chart.py chart_page.py chart_picture.py items.py notation.py recording.py replayed.py report.py watch.py

.PHONY: all demo serve-demo chart try test gate-cost check bench bench-hub bench-serve bench-many install deb examples clean

# The proved program. Nothing is built that is not proved, so a first `make` takes some three quarters of an hour.
all: $(PROGRAM)

# Independent crates are proved side by side first. `rt run` then links the program and runs it once,
# here on a transcript without entries, which has no records.
$(PROGRAM): $(SOURCES)
	rt all check --jobs $(JOBS)
	cd crates/rtspgate && printf 'RTSPGW1\n' | rt run -- $(REPLAY)
	touch $@

# Replays the sessions of two players, shows the records as text, and plays a drill.
demo: $(PROGRAM)
	@mkdir -p examples/out
	$(PROGRAM) $(REPLAY) < examples/sessions.rtspgw > examples/out/sessions.records
	tools/transcript records < examples/out/sessions.records
	$(PROGRAM) drill 64 7

# Serves two players, between them and a small server, over sockets, and draws the recording; with `PLAYER=ffprobe` that
# player, twice.
serve-demo: $(PROGRAM)
	tools/serve_demo $(PROGRAM) $(PLAYER)

# Draws the sessions as a sequence chart, which is docs/sessions.svg.
chart: $(PROGRAM)
	tools/transcript chart $(PROGRAM) rtsp://gate.example rtsp://media.example < examples/sessions.rtspgw > docs/sessions.svg

# What `demo` shows within minutes after a fresh clone, before any proof: the program is compiled once, with checks, and nothing
# of it is kept. The replay's records are compared with those that it must give; then those are shown.
TRIED := examples/out/try
try:
	@rm -rf $(TRIED) && mkdir -p $(TRIED)
	@cp examples/sessions.rtspgw $(TRIED)/replay
	@printf '%s\n' $(REPLAY) > $(TRIED)/replay.args
	@tools/transcript bin < examples/sessions.records.txt > $(TRIED)/replay.stdout
	@: > $(TRIED)/drill
	@printf '%s\n' drill 2 7 > $(TRIED)/drill.args
	cd crates/rtspgate && rt try --cases ../../$(TRIED)
	tools/transcript records < $(TRIED)/replay.stdout

test:
	rt ci

# What the gate costs, crate by crate: it proves all anew.
gate-cost:
	tools/gate_cost

# Runs the program over real files and pipes: cuts, the gate's transcripts, bad words, faults of the source, the sink
# and memory, and the longest transcript; and compares the records of drawn transcripts with a second reading of
# docs/FORMATS.md. Then it serves players over sockets: ends of all kinds, bursts, a player that takes nothing, and what can't be
# opened; looks whether players, errors and recordings hold up or end nothing else (`tools/check_stands --long PROGRAM` has scenes
# of a minute besides), also where the host fails it: recordings that stall, few descriptors, a server that doesn't answer.
# tools/check_tools has tools/transcript look into recordings. Before all that it looks whether the pictures of docs/ are as they
# would be drawn, whether each name stands once and each definition has its comment, counts the must-fail edits, and compares
# the numbers of the pages with those of the help.
check: $(PROGRAM)
	tools/pictures --check
	tools/definitions --check
	tools/edits --count
	tools/check_pages $(PROGRAM)
	tools/check_program $(PROGRAM)
	tools/check_serve $(PROGRAM)
	tools/check_stands $(PROGRAM)
	tools/check_world $(PROGRAM)
	tools/check_tools $(PROGRAM)
	tools/compare $(PROGRAM)

bench: $(PROGRAM)
	bench/run $(PROGRAM)

# What an event costs through a hub, beside a replay of the same events.
bench-hub: $(PROGRAM)
	cd crates/test_hub && rt run < stdin > /dev/null
	bench/hub

# What `serve` moves over loopback, beside a plain relay.
bench-serve: $(PROGRAM)
	bench/serve $(PROGRAM)

# Two hundred players through four gateways behind haproxy, where that is installed.
bench-many: $(PROGRAM)
	bench/many $(PROGRAM)

# Puts the program, its man page, the units and tools/transcript into a folder: $(1) is the folder, $(2) the prefix in it. Words
# that are in /etc/default/rtspgate stay.
define put
	install -d $(1)$(2)/bin $(1)$(2)/lib/rtspgate $(1)$(2)/lib/systemd/system $(1)$(2)/share/man/man1 \
	    $(1)$(2)/share/doc/rtspgate $(1)/etc/default
	install -m 755 $(PROGRAM) $(1)$(2)/bin/rtspgate
	install -m 755 tools/transcript $(1)$(2)/lib/rtspgate/transcript
	install -m 644 $(addprefix tools/,$(PARTS)) $(1)$(2)/lib/rtspgate
	ln -sf ../lib/rtspgate/transcript $(1)$(2)/bin/rtspgate-transcript
	install -m 644 contrib/rtspgate.1 $(1)$(2)/share/man/man1/rtspgate.1
	for unit in rtspgate.service rtspgate@.service; do \
	    sed 's|/usr/local/bin|$(2)/bin|' contrib/$$unit > $(1)$(2)/lib/systemd/system/$$unit || exit 1; done
	install -m 644 docs/OPERATING.md docs/FORMATS.md contrib/haproxy.cfg $(1)$(2)/share/doc/rtspgate
	test -e $(1)/etc/default/rtspgate || install -m 644 contrib/rtspgate.default $(1)/etc/default/rtspgate
endef

# The user that the units run as is not made here; docs/OPERATING.md says how.
install: $(PROGRAM)
	$(call put,$(DESTDIR),$(PREFIX))

# The same as a package of Debian, in out/deb; `tools/check_deb` unpacks and installs it into a folder.
deb: $(PROGRAM)
	rm -rf out/deb
	$(call put,out/deb/root,/usr)
	tools/make_deb out/deb/root out/deb

# Makes the transcripts of examples/ anew from their texts.
examples:
	for name in $(EXAMPLES); do tools/transcript bin < examples/$$name.txt > examples/$$name.rtspgw || exit 1; done

clean:
	rm -rf crates/*/out bench/out examples/out out
