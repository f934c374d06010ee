# `make run` proves and builds frcalc and answers a script; `make test` is the whole gate. README.md has the others.
PROGRAM ?= frcalc
SCRIPT ?= examples/adding-machine.fr
WORDS ?=
OUT := crates/$(PROGRAM)/out/$(PROGRAM)

# The programs of the repository.
PROGRAMS := frcalc

.PHONY: run try record programs test script

# Prints each question with its answer under it. The status 1 says that a line was refused, which is no error here.
run: script
	@bash tools/build $(PROGRAM)
	@answers=$$(mktemp) && { \
	  $(OUT) $(WORDS) <'$(SCRIPT)' >"$$answers"; status=$$?; \
	  if [ $(PROGRAM) = frcalc ]; then bash examples/beside '$(SCRIPT)' "$$answers"; else cat "$$answers"; fi; \
	  rm -f "$$answers"; [ $$status -le 1 ] || exit $$status; }

# An answer in about a minute, by a program of which nothing is proved.
try: script
	@echo "not proved: this program is built without any proof" >&2
	@cd crates/$(PROGRAM) && { rt try -- $(WORDS) <'$(abspath $(SCRIPT))'; [ $$? -le 1 ]; }

record: script
	@bash tools/build $(PROGRAM)
	@bash tools/record $(PROGRAM) '$(SCRIPT)' $(WORDS)

programs:
	@for program in $(PROGRAMS); do bash tools/build $$program || exit 1; done

test:
	@bash .ci/run

script:
	@test -r '$(SCRIPT)' || { echo "there is no script $(SCRIPT)" >&2; exit 2; }
