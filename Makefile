# Short names for the repository's commands. `make` lists them.
.PHONY: help run build example night test test-needs proofs page test-page card install uninstall dist check quick cases refused wrong-bodies folder-bodies desks desk-bodies documents shape lint \
	bench fmt

PREFIX = /usr/local
# The Python that has pytest: that of Debian, unless another is named.
PYTHON ?= /usr/bin/python3
export PYTHON
.NOTPARALLEL:
# pytest, with what the part desks or page needs, or no part (all).
pytest = scripts/test-needs --check $(1) && "$(PYTHON)" -m pytest -v

help:
	@cat scripts/help

run:
	@program=$$(scripts/program) && exec "$$program"

build:
	@scripts/build

example:
	@program=$$(scripts/program) && examples/zurich2006/run "$$program"

night:
	@examples/canton/run $(SEED)

test:
	@scripts/test

test-needs:
	@scripts/test-needs

proofs:
	@scripts/test --ignore tests/page --deselect "tests/test_plants.py::test_mistake[page-" \
	--deselect "tests/test_plants.py::test_without_a_mistake[page-"

page:
	@page/seal

test-page:
	@$(call pytest,page) $(if $(TESTS),tests/page -k "$(TESTS)",tests -k "tests/page or page-")

card:
	@scripts/card

install:
	@scripts/install "$(DESTDIR)" "$(PREFIX)"

uninstall:
	@scripts/install "$(DESTDIR)" "$(PREFIX)" remove

dist:
	@scripts/dist

check:
	@scripts/check $(CRATE)

# Without a proof; the files in tests/quick_without take long where nothing is optimized.
short = $(filter-out $(shell cat tests/quick_without),$(notdir $(wildcard crates/zh_cases/data/*.case)))

quick:
	@makes=$$(scripts/program zh_cases) && runs=$$(scripts/program) && "$(PYTHON)" tests/cases.py --programs "$$makes" "$$runs" $(or $(CASES),$(short)) && \
	echo "nothing was proved; left out, as they take long: $(if $(CASES),none,$$(paste -sd ' ' tests/quick_without))"

cases:
	@scripts/build >&2
	@scripts/build zh_cases rehearsal >&2
	@"$(PYTHON)" tests/cases.py $(CASES)

refused:
	@$(call pytest,all) tests/test_refused.py

wrong-bodies:
	@tests/edits --all $(CRATES)

desks:
	@$(call pytest,desks) tests/desks

desk-bodies:
	@$(call pytest,desks) tests -m plants -k "desks- $(if $(BODIES),and ($(BODIES)))"

folder-bodies:
	@$(call pytest,all) tests -m plants -k "without_a_mistake or real_file- $(if $(BODIES),and ($(BODIES)))"

documents:
	@"$(PYTHON)" tests/pages check examples

shape:
	@"$(PYTHON)" tests/pages check

lint:
	@scripts/lint

bench:
	@bench/run

fmt:
	for crate in crates/*/; do (cd $$crate && rt fmt); done
