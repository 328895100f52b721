# What a person does here. A bare `make` lists it.

ADDR = 127.0.0.1:5000
# how many connections each worker takes; none: all that come
COUNT =
# how many connections it serves at a time
WORKERS = 16
# the folder in which it keeps what it has; none: it keeps nothing
DATA =
FILE = README.md
# the words of `make run`
ARGS =
# how long `make edits` may begin another edit; none: until all are tried
MINUTES =
# the registry of `make adapter`, a file with USER:PASSWORD, a file with what signs its certificate, and where it listens
REGISTRY =
LOGIN =
CA =
ADAPTER = 127.0.0.1:5090

# The proved program for every x86-64 processor, and the same program for those of the level x86-64-v3, which hashes faster (docs/PERFORMANCE.md).
EVERY = crates/blobd/out/blobd
V3 = crates/blobd/out/blobd-v3
# What a processor of that level has. The program checks as it starts that the processor is one.
V3_FLAGS = avx avx2 bmi1 bmi2 f16c fma abm movbe xsave
NATIVE := $(if $(filter-out $(shell grep -m1 '^flags' /proc/cpuinfo),$(V3_FLAGS)),$(EVERY),$(V3))
# The same program for every x86-64 processor, built without its proof.
UNPROVED = crates/blobd/out/blobd-unproved

# What the program is made of. A program that is newer than all of it is taken as it is.
CRATES = upload_names upload_bytes upload_service http_wire upload_texts upload_wire upload_client upload_keeper upload_intake journal journal_file bodies upload_journal upload_store upload_records upload_compact upload_keeping upload_push blobd_shared blobd_data blobd_serve blobd_push blobd_words blobd
PARTS := crates.txt $(wildcard $(foreach crate,$(CRATES),$(foreach part,src specs proofs,crates/$(crate)/$(part))))
SOURCES := $(shell find $(PARTS) -type f)

# The proved programs that are no older than these, the one for this processor first.
PROVED := $(foreach one,$(wildcard $(NATIVE) $(EVERY)),$(if $(shell find $(PARTS) -type f -newer $(one) -print -quit),,$(one)))
# What `make serve` and others start: a proved one, else the unproved one.
PROGRAM := $(or $(firstword $(PROVED)),$(UNPROVED))
# What they build before that: nothing, if PROGRAM names a program.
MADE = $(if $(filter file,$(origin PROGRAM)),$(PROGRAM))
# What `make run` and `make upload` start, as it is: a proved one, else what was built last.
BUILT = $(if $(MADE),$(firstword $(PROVED) $(shell ls -t $(NATIVE) $(EVERY) $(UNPROVED) 2>/dev/null)),$(wildcard $(PROGRAM)))
# Says which it is, on standard error; of another one nothing.
NOT_PROVED = not proved on this machine: make build proves it, in an hour
say = $(if $(filter $(PROVED),$(1)),echo '$(1): proved' >&2,$(if $(filter $(UNPROVED),$(1)),echo '$(1): $(NOT_PROVED)' >&2,:))

# Bodies and blobs are long lists of bytes. If glibc asks the system for huge pages, fresh memory costs them a third, and if
# it has each block of 1 MiB and more from the system, chunks leave no gaps between them. With one heap for all threads, what
# is free in it is free for each.
MALLOC = GLIBC_TUNABLES=glibc.malloc.hugetlb=1:glibc.malloc.mmap_threshold=1048576:glibc.malloc.arena_max=1

.PHONY: help once serve run upload registry adapter fast build native image dist test edits edges wrong-bodies check format figures fuzz soak long large growths bench
# A build that fails leaves no program behind that looks newer than its sources.
.DELETE_ON_ERROR:

help:
	@echo 'make once     a whole upload over one connection: each request beside its reply'
	@echo 'make serve    the service at $(ADDR), until it is interrupted (ADDR=.. another address, WORKERS=.. connections at a time, COUNT=.. so many of each worker,'
	@echo '              DATA=.. the folder in which it keeps what it has)'
	@echo 'make upload   pushes $(FILE) to that service (FILE=.. another file), pulls it back and compares; in another shell'
	@echo 'make registry a registry to push images to: TLS and a login, with HAProxy before the service (docs/OPERATIONS.md;'
	@echo '              DATA=.. the folder in which it keeps what it has, with Redis for the tags)'
	@echo '              once, serve and registry start the proved program if its sources are no newer, else what make fast builds,'
	@echo '              and say which. If it is built already, they start at once'
	@echo 'make adapter REGISTRY=host:5443 LOGIN=FILE CA=FILE   lets blobd push to a registry on another machine, with TLS and a login'
	@echo 'make run ARGS="push .."  the program as it is built, with these words: it never builds'
	@echo
	@echo 'make fast     the program without its proof, in three minutes: $(UNPROVED)'
	@echo 'make build    the proved program for every x86-64 processor, in 30 to 60 minutes from nothing on four cores: $(EVERY)'
	@echo 'make native   the one that is fastest here: $(NATIVE)'
	@echo 'make image    a container image of the built program, under dist/ (no base image is pulled)'
	@echo 'make dist     a tar under dist/: the program in both forms, deploy/, the pages, the license, and the sums of all'
	@echo
	@echo 'make test     everything that must hold: proofs, must-fail edits (wrong programs, which the prover must refuse), tests,'
	@echo '              the checks of the repository; an hour or two from nothing'
	@echo 'make check    proves what changed since the last check; make test is the judge'
	@echo 'make edits    the further edits, which make test leaves out: some hours (MINUTES=30 some of them, by turns)'
	@echo 'make edges    programs that the contracts allow and that a reader would not expect: the prover must accept each'
	@echo 'make wrong-bodies  a table of all must-fail edits: what each does wrong, and which contracts refuse it'
	@echo 'make format   lays out the sources'
	@echo 'make growths  the program and the built tests with each growth of memory refused in turn (after make test, which does it too)'
	@echo 'make fuzz     100,000 generated streams of requests through `blobd once`, beside a model (make test runs 2,000)'
	@echo 'make soak     three minutes of clients that cut connections, race one another and are refused memory'
	@echo 'make long     ten million requests, a million small blobs, ten thousand power cuts and a hundred kills, with the memory that `blobd serve` has then;'
	@echo '              pushes of 1 GiB over restarts of the server; servers that clients fill, for a minute each; thousands of damaged sectors'
	@echo 'make large    blobs of more than 1 GiB, each in one request or one push, stored and pulled: two minutes'
	@echo 'make figures  speed and memory of `blobd once` and of the service alone, as ratios in one run'
	@echo 'make bench    the same of `blobd serve` and `blobd push` over loopback, and a picture; then with a data directory, in this'
	@echo '              folder: twenty minutes, and 11 GB of disk (docs/PERFORMANCE.md)'

once: $(MADE)
	@$(call say,$(PROGRAM))
	@python3 tools/conversation.py $(PROGRAM) once

serve: counted $(MADE)
	@$(call say,$(PROGRAM))
	@BLOBD_WORKERS=$(WORKERS) $(if $(DATA),BLOBD_DATA='$(DATA)') $(MALLOC) $(PROGRAM) serve $(ADDR) $(COUNT)

# A COUNT that the program would refuse is refused before anything is built.
.PHONY: counted
counted:
	@case '$(COUNT)' in \
		'' | 1000000) ;; \
		0* | *[!0-9]* | ???????*) echo 'usage: make serve [ADDR=$(ADDR)] [COUNT=1 to 1000000]' >&2; exit 2;; \
	esac

run: built
	@$(call say,$(BUILT))
	@$(MALLOC) $(BUILT) $(ARGS)

upload: built
	@$(call say,$(BUILT))
	@$(BUILT) push $(ADDR) lib/demo '$(FILE)' 1048576
	@curl -sS -H 'Connection: close' http://$(ADDR)/v2/lib/demo/blobs/sha256:$$(sha256sum '$(FILE)' | cut -d' ' -f1) | cmp - '$(FILE)'
	@echo 'the same came back'

.PHONY: built
built:
	@test -n '$(BUILT)' || { echo 'Nothing is built yet. make fast builds the program without its proof, in three minutes, and make build with it; or name one that is built: PROGRAM=FILE' >&2; exit 1; }

fast: $(UNPROVED)
	@echo '$(UNPROVED): $(NOT_PROVED)'
build: $(EVERY)
	@echo '$(EVERY)'
native: $(NATIVE)
	@echo '$(NATIVE)'

$(UNPROVED): $(SOURCES)
	@python3 tools/fast.py
$(EVERY): $(SOURCES)
	@python3 tools/build.py
$(V3): $(SOURCES)
	@python3 tools/build.py --cpu=x86-64-v3

# The packages and the addresses first: what is missing or taken is told before the program is built.
registry:
	@python3 deploy/registry.py --packages $(if $(DATA),'$(DATA)')
ifneq ($(MADE),)
	@$(MAKE) -s $(MADE)
endif
	@$(call say,$(PROGRAM))
	@python3 deploy/registry.py $(PROGRAM) $(if $(DATA),'$(DATA)')

adapter:
	@test -n '$(REGISTRY)' || { echo 'usage: make adapter REGISTRY=host:5443 [LOGIN=FILE] [CA=FILE] [ADAPTER=$(ADAPTER)]' >&2; exit 2; }
	@python3 deploy/adapter.py '$(REGISTRY)' --login='$(LOGIN)' --ca='$(CA)' --at='$(ADAPTER)'

image: $(EVERY)
	@python3 tools/pack.py image

# One after the other: the toolchain writes both to the same place.
dist: $(EVERY)
	@$(MAKE) -s $(V3)
	@python3 tools/pack.py release

test:
	@python3 tests/gate.py

edits:
	@python3 tests/edits.py $(if $(MINUTES),--minutes $(MINUTES))

edges:
	@python3 tests/edges.py

wrong-bodies:
	@python3 tests/wrong_bodies.py

check:
	rt all check

format:
	for crate in crates/*/; do (cd "$$crate" && rt fmt) || exit 1; done

figures: $(EVERY)
	@python3 bench/connection.py $(EVERY)
	@cd crates/bench_service && rt run
	@python3 bench/service.py crates/bench_service/out/bench_service

# Figures in docs/performance.json, and the picture of them.
JSON = docs/performance.json
MEASURED = $(if $(MADE),$(NATIVE),$(PROGRAM))
bench: $(if $(MADE),$(NATIVE))
	@python3 bench/loopback.py $(MEASURED) --json $(JSON)
	@python3 bench/draw.py $(JSON) docs/performance.svg
	@python3 bench/disk.py $(MEASURED)

fuzz: $(EVERY)
	@python3 tests/differential.py $(EVERY) --streams 100000

soak: $(EVERY)
	@python3 tests/soak.py $(EVERY) --seconds 30

long: $(EVERY)
	@python3 tests/long_runs.py $(EVERY)
	@python3 tests/power_cuts.py $(EVERY) --cuts 10000 --seed 2
	@python3 tests/serve_data.py $(EVERY) -k killed_at_random --kills 100 --seconds 0 --seed 2
	@python3 tests/pushes.py $(EVERY) -k pushes_over_restarts --mib 1024
	@python3 tests/serve_journal.py $(EVERY) -k many_damaged_gates --damaged 4099
	@python3 tests/fills.py $(EVERY) --seconds 60 --times 100

large: $(EVERY)
	@python3 tests/large.py $(EVERY)

growths: $(EVERY)
	@python3 tests/growths.py $(EVERY)
