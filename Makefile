# make play             plays examples/sessions/moved.session, before any proof where none was made yet
# make play SESSION=F   plays the session in the file F
# make build            proves and builds the program
# make test             the gate (every proof, test and must-fail edit), every session, and memory refused
# MINUTES=N make test   the same, but with as many of the must-fail edits as end within N minutes (docs/GATE.md)
# make bench            times 10,000 and 20,000 queries, an MGET of as many keys, an XREAD of as many streams, a pipeline of as
#                       many commands, the parser over bytes cut in pieces, a map of up to 16,384 slot ranges, and what a call
#                       takes beside a lean client in plain Rust
# make live HOST=H PORT=P   takes commands for the cluster of the node at H and P from standard input (docs/LIVE.md)
# make proxy HOST=H PORT=P LISTEN=L   makes the cluster of the node at H and P look like one server at 127.0.0.1:L
#                       (docs/PROXY.md); with PROGRAMS=N by so many programs side by side. Where one of its parts ends, it fails
# make proxy-test       tries that against a cluster of six, which it starts, and measures it; no part of the gate
# make proxy-test SOURCE=F  the same, and then Redis's own tests through it, of the source of Redis 7.0.15 in the folder F
# make live-test        tries the program of docs/SOCKETS.md, and then `make live`, by one client and by four on the same keys,
#                       against clusters of six, which it starts; no part of the gate
SESSION ?= examples/sessions/moved.session

HOST ?= 127.0.0.1
PORT ?= 7000
LISTEN ?= 6390
PROGRAMS ?= 1
SOURCE ?=

.PHONY: play build test bench live live-test proxy proxy-test

play:
	@tools/play "$(SESSION)"

build:
	@tools/build

test:
	@tools/test

bench:
	@program=$$(tools/build) && tools/bench "$$program"
	@program=$$(tools/build parser_bench) && tools/parser-bench "$$program"
	@program=$$(tools/build range_map_bench) && tools/range-map-bench "$$program"
	@program=$$(tools/build call_bench) && tools/call-bench "$$program"

live:
	@program=$$(tools/build redis_live) && tools/live "$$program" "$(HOST)" "$(PORT)"

live-test:
	@tools/sockets-test
	@program=$$(tools/build redis_live) && tools/live-test "$$program" && tools/live-clients "$$program"

proxy:
	@program=$$(tools/build redis_proxy) && exec tools/proxy "$$program" "$(HOST)" "$(PORT)" "$(LISTEN)" "$(PROGRAMS)"

proxy-test:
	@program=$$(tools/build redis_proxy) && tools/proxy-test "$$program" && tools/proxy-bench "$$program" && \
		if [ -n "$(SOURCE)" ]; then tools/redis-tests "$$program" "$(SOURCE)"; fi
