# `make help` lists what there is.
.PHONY: help try try-ctl run build install check test mutants bench worlds stress kills channels crashes forged inputs memory documents front front-install front-check front-test front-bench
program = crates/ingestd/out/ingestd
ctl = crates/ingestctl/out/ingestctl
PREFIX = /usr/local
# The front is run by Debian's own Python, for which its libraries are packaged.
python = /usr/bin/python3
front = front/out/sarymbeu-front
postings_figures = crates/bench_postings/out/bench_postings
codec_figures = crates/bench_codec/out/bench_codec
worlds_by_lot = crates/test_worlds/out/test_worlds
nodes_by_lot = crates/test_nodes/out/test_nodes
refusing_program = memory/out/ingestd
refusing_ctl = memory/out/ingestctl
sources = crates.txt $(shell find crates -name out -prune -o \( -name '*.rt' -o -name '*.antt' \) -print)

help:
	@echo 'make try      runs the program on standard input before anything is proved, within a minute or two; SETTINGS=FILE'
	@echo 'make try-ctl  does so with ingestctl; ARGS="load --tenant me --label job=app" < app.log'
	@echo 'make run      runs the program on standard input, with all that it calls proved first; SETTINGS=FILE, FOLDER=FOLDER'
	@echo 'make build    builds it and ingestctl, with all that they call proved'
	@echo 'make install  puts both and a man page each in place; PREFIX=FOLDER'
	@echo 'make check    proves what has changed, while you edit'
	@echo 'make test     the whole gate: every proof, test and case, and the wrong bodies of each crate'
	@echo 'make mutants  tries the other wrong bodies, each of which the prover has to refuse; CRATE=NAME for those of one crate'
	@echo 'make bench    figures of time, to be read (bench/README.md)'
	@echo 'make worlds   10,000 lists of events by lot, beside a slow program'
	@echo 'make stress   10,000 lives of an ingester by lot, each of several threads'
	@echo 'make kills    200 runs over a folder by lot, most of them killed, then 200 with files that may not grow, then each call for a file failed (by strace); KILLS=N, SEED=N'
	@echo 'make channels 200 runs by lot with one to eight channels, of which some break, and some are killed, and fixed scenes; then what was told is altered in each of some ways, and every time it has to show; CHANNELS=N, SEED=N'
	@echo 'make crashes  10,000 images that a power cut may leave of a folder, each started over, and as many behind a call that failed; then a program without one sync has to be caught, for each of four, and one that tells durable what failed; then the same over channels, with a fifth of the images; IMAGES=N, SEED=N'
	@echo 'make forged   1,000,000 chunk objects, index rows and logs by lot, most of them forged: each is read as a reader written from docs/FORMATS.md alone reads it, or refused alike; TEXTS=N, SEED=N'
	@echo 'make inputs   10,000 inputs by lot, of one to five shards and one to four flushers, in memory and over a folder with new starts between: each reply is, byte for byte, that of a slow model written from docs/COMMANDS.md and docs/FORMATS.md; INPUTS=N, SEED=N'
	@echo 'make memory   runs small inputs with each growth of memory refused in turn, one alone, by programs that are built for that, unproved; BODY=WORD'
	@echo 'make front    runs the front over the program; SETTINGS=FILE, FOLDER=FOLDER, OPTIONS="--server.http-listen-port 3100" (docs/FRONT.md)'
	@echo 'make front-install puts the front in place; PREFIX=FOLDER'
	@echo 'make front-check tests the front without the program'
	@echo 'make front-test  tests the front over the program, and kills both; PROGRAM=FILE'
	@echo 'make front-bench figures of pushes through the front; PROGRAM=FILE'

# The toolchain's own lines go to standard error, so that standard output has the replies alone.
try:
	@scripts/try.sh ingestd $(if $(SETTINGS),--data settings.toml="$(abspath $(SETTINGS))") -- $(if $(SETTINGS),settings.toml)

# A word that is the name of a file below this folder is passed with the file.
try-ctl:
	@scripts/try.sh ingestctl $(foreach word,$(ARGS),$(if $(wildcard $(word)),--data $(word)="$(abspath $(word))")) -- $(ARGS)

run: $(program)
	@$(program) $(if $(SETTINGS)$(FOLDER),"$(or $(SETTINGS),/dev/null)") $(if $(FOLDER),"$(FOLDER)")

build: $(program) $(ctl)

install: build
	install -D $(program) "$(DESTDIR)$(PREFIX)/bin/ingestd"
	install -D $(ctl) "$(DESTDIR)$(PREFIX)/bin/ingestctl"
	mkdir -p "$(DESTDIR)$(PREFIX)/share/man/man1"
	scripts/man.sh ingestd > "$(DESTDIR)$(PREFIX)/share/man/man1/ingestd.1"
	scripts/man.sh ingestctl > "$(DESTDIR)$(PREFIX)/share/man/man1/ingestctl.1"

$(program): $(sources)
	@scripts/build.sh ingestd
	@touch $@

$(ctl): $(sources)
	@scripts/build.sh ingestctl refusals 0
	@touch $@

check:
	rt all check

# The crates from which the most ways lead down come first: there a needless edge shows.
test: documents front-check
	@scripts/ways.sh | head -n 3
	@scripts/gate.sh

mutants:
	@mutants/try.sh $(CRATE)

# A case with a file `document` stands in that page: each line of it, indented by four spaces. An example is the input of a
# case. README.md names the toolchain that --version names.
documents:
	@for example in examples/*.jsonl; do \
	  cmp "$$example" "crates/test_cases/data/example_$$(basename "$$example" .jsonl)/input.jsonl" || exit 1; \
	done
	@cmp examples/settings.toml crates/test_cases/data/example_first_push/settings.toml
	@kit="$$(sed -n 's/.*(\(rattle-kit.*\)).*/\1/p' crates/ing_version/src/lib.rt)"; \
	grep -qF -e "$$kit" README.md || { echo "README.md and --version name other toolchains"; exit 1; }
	@for page in crates/test_cases/data/*/document; do \
	  folder=$${page%/document}; \
	  for file in settings.toml input.jsonl output.jsonl; do \
	    [ ! -e "$$folder/$$file" ] || sed '/^$$/d; s/^/    /' "$$folder/$$file" | while IFS= read -r line || [ -n "$$line" ]; do \
	      grep -qxF -e "$$line" "$$(cat "$$page")" || { echo "$$(cat "$$page") does not show $$folder/$$file"; exit 1; }; \
	    done || exit 1; \
	  done; \
	done

bench: $(postings_figures) $(codec_figures) $(nodes_by_lot) $(program)
	@$(postings_figures) times 10000 30000 100000
	@$(codec_figures) times 120 4096
	@$(nodes_by_lot) times 1000000
	@$(nodes_by_lot) pauses 100000
	@bench/flushers.sh $(program)
	@bench/pushes.sh $(program)
	@python3 bench/recovery.py $(program) --parent /dev/shm
	@python3 bench/channels.py $(program)

$(postings_figures): $(sources)
	@scripts/build.sh bench_postings counts 100
	@touch $@

$(codec_figures): $(sources)
	@scripts/build.sh bench_codec counts 120
	@touch $@

worlds: $(worlds_by_lot)
	@$(worlds_by_lot) 10000

$(worlds_by_lot): $(sources)
	@scripts/build.sh test_worlds 1
	@touch $@

stress: $(nodes_by_lot)
	@$(nodes_by_lot) lots 10000

$(nodes_by_lot): $(sources)
	@scripts/build.sh test_nodes counts 20
	@touch $@

kills: $(program)
	@python3 kills/kills.py $(program) $(if $(KILLS),--rounds $(KILLS)) $(if $(SEED),--seed $(SEED))
	@python3 kills/kills.py $(program) $(if $(KILLS),--rounds $(KILLS)) $(if $(SEED),--seed $(SEED)) --full
	@if command -v strace >/dev/null; then python3 kills/kills.py $(program) --fail $(if $(SEED),--seed $(SEED)); else echo 'no strace: no call fails in turn'; fi

channels: $(program)
	@python3 channels/channels.py $(program) $(if $(CHANNELS),--rounds $(CHANNELS)) $(if $(SEED),--seed $(SEED))
	@python3 channels/channels.py $(program) --plant each $(if $(SEED),--seed $(SEED))

crashes: of_channels = $$((($(or $(IMAGES),10000) + 4) / 5))
crashes: $(program) $(ctl)
	@python3 crashes/crashes.py $(program) --ctl $(ctl) $(if $(IMAGES),--images $(IMAGES)) $(if $(SEED),--seed $(SEED))
	@python3 crashes/crashes.py $(program) --ctl $(ctl) --fail $(if $(IMAGES),--images $(IMAGES)) $(if $(SEED),--seed $(SEED))
	@for which in append beside folder begun told; do \
	  python3 crashes/crashes.py $(program) --ctl $(ctl) $(if $(SEED),--seed $(SEED)) --without $$which || exit 1; \
	done
	@python3 crashes/crashes.py $(program) --ctl $(ctl) --channels 4 --images $(of_channels) $(if $(SEED),--seed $(SEED))
	@python3 crashes/crashes.py $(program) --ctl $(ctl) --channels 4 --fail --images $(of_channels) $(if $(SEED),--seed $(SEED))
	@for which in append beside folder begun told; do \
	  python3 crashes/crashes.py $(program) --ctl $(ctl) --channels 3 $(if $(SEED),--seed $(SEED)) --without $$which || exit 1; \
	done

forged: $(program) $(ctl)
	@python3 forged/forged.py $(program) --ctl $(ctl) $(if $(TEXTS),--texts $(TEXTS)) $(if $(SEED),--seed $(SEED))

inputs: $(program)
	@python3 inputs/inputs.py $(program) $(if $(INPUTS),--inputs $(INPUTS)) $(if $(SEED),--seed $(SEED))

memory: $(refusing_program) $(refusing_ctl)
	@python3 memory/memory.py $(refusing_program) --ctl $(refusing_ctl) $(if $(BODY),--body "$(BODY)")

# Nothing is proved here, so proofs do not count.
$(refusing_program): $(filter-out %.antt,$(sources))
	@python3 memory/refusing.py ingestd $@

# With this word it reads the file that is named behind it.
$(refusing_ctl): $(filter-out %.antt,$(sources))
	@python3 memory/refusing.py ingestctl $@ settings

# One file, which Python runs: the package without its tests.
$(front): $(wildcard front/sarymbeu_front/*.py)
	@rm -rf front/out && mkdir -p front/out/package/sarymbeu_front
	@cp front/sarymbeu_front/*.py front/out/package/sarymbeu_front
	@$(python) -m zipapp front/out/package --main sarymbeu_front.__main__:end --python $(python) --output $@

front: $(program) $(front)
	@$(front) --program $(program) $(OPTIONS) "$(or $(SETTINGS),/dev/null)" "$(FOLDER)"

front-install: $(front)
	install -D $(front) "$(DESTDIR)$(PREFIX)/bin/sarymbeu-front"

front-check:
	@$(python) -m pytest -q -p no:cacheprovider front/tests

front-test: $(or $(PROGRAM),$(program)) $(front)
	@PROGRAM="$(abspath $(or $(PROGRAM),$(program)))" FRONT="$(abspath $(front))" $(python) -m pytest -q -p no:cacheprovider front/program_tests

front-bench: $(or $(PROGRAM),$(program)) $(front)
	@$(python) front/bench/figures.py "$(or $(PROGRAM),$(program))" $(front)
