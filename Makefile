# `make help` prints the commands. Each stands below as NAME: ## HOW LONG | WHAT IT DOES, with the archive made; times are of a machine with four cores.
.PHONY: all help run test readings host compare bench bench-instructions bench-peers bench-flat targets firmware python page install review
.DELETE_ON_ERROR:

# TARGET: the folder for all that is built; relative names, here and in GAUGE_ARCHIVE, begin at the top of the repository.
TARGET = $(or $(GAUGE_TARGET),target)
SEEDS =
SEED = 20261116
BENCH =
MACHINES =
PREFIX = /usr/local
DESTDIR =

export GAUGE_TARGET := $(TARGET)
# Scripts read text as bytes, whatever the locale.
export LC_ALL := C

all: ## 9 min, then 1 s | the proved archive and the tools, and where they are; proved again only where a source or the kit has changed
	@host/build.sh

help: ## at once | this list
	@sed -n 's/^\([a-z-]*\):.*## \(.*\) | \(.*\)/\1|\2|\3/p' Makefile | awk -F '|' '{ printf "make %-20s %-18s %s\n", $$1 == "all" ? "" : $$1, $$2, $$3 }'
	@echo "On four cores, with the archive made. TARGET=DIR builds in another folder than target/; GAUGE_ARCHIVE=FILE links another archive."

run: ## 5 s | the bundled recording through the bundled settings, beside a line whose integrator holds
	@examples/demo/run.sh

test: ## 45 min | the whole gate; SEEDS="7 8" gives the comparison other seeds
	@tests/run.sh $(SEEDS)

readings: ## 1 min, then 1 s | 01's readings through the proved converters, printed
	@host/readings.sh

review: ## 5 min | for a reviewer: what the archive is made of, the readings, and three edits that the prover refuses
	@host/review.sh

host: ## 2 min | the interfaces for C, Rust and Python, the tool, the demo and the pages, checked and run
	@tests/host/run.sh

compare: ## 2 min | the archive and the Rust compared over 10^9 samples; SEED=7 gives another seed
	@tests/oracle/build.sh
	@"$(TARGET)/oracle/oracle" compare --seed $(SEED) --cases 1000000 --samples 1000000000

bench: ## 30 s | what a sample costs here and in the Rust; BENCH="--rounds 100" gives other options
	@bench/run.sh $(BENCH)

bench-instructions: ## 2 min | the same in instructions, by valgrind
	@bench/run.sh --callgrind $(BENCH)

bench-peers: ## 15 s | like work in liquid-dsp, libsamplerate, soxr and speexdsp, beside the archive; what is not installed is skipped
	@bench/peers.sh

bench-flat: ## 30 s | what a sample costs in streams of 10^3 to 10^9
	@bench/run.sh --flat

targets: ## 30 s | the proved module on other machines, its outputs compared with those on x86-64, and a Cortex-M4F beside plain C; MACHINES="wasm32" names some
	@targets/run.sh $(MACHINES)

firmware: ## 3 s | the archive for Cortex-M4F, with a table of its code and stack, in target/firmware
	@targets/firmware.sh

python: ## 1 s | the package for Python with its shared object, in target/python
	@python/build.sh

page: ## 5 s | the page, target/page/gauge.html: the proved module in a browser, from disk and with no network
	@host/page/build.sh

install: ## 5 s | archive, headers, tool, pkg-config and CMake files below PREFIX, /usr/local unless it is given; DESTDIR is put before it
	@packaging/install.sh "$(PREFIX)" "$(DESTDIR)"
