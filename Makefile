# The lines of `make help` are the comments after ## below. `make` alone is `make report`.
.DEFAULT_GOAL := report
.PHONY: report test help pairs lib check bench clean
CRATE ?=
export CRATE
# the crates that export the C interface, each an archive of its own that the library joins
EXPORTS := mz_tables_c mz_texts_c mz_records_c mz_lists_c mz_many_c
CRATES := sed -nE 's/^([a-z0-9_]+)( staticlib)?:.*/\1/p' crates.txt

# Status 1 says that the lists share names, as those of the sample do.
report: lib ## what `make` alone does: build the library as `make lib`, and show which names the two lists of the sample share
	@echo
	@PYTHONPATH=bindings/python python3 -m mundeziwa shared sample/train.csv sample/held.txt --column name || [ $$? -eq 1 ]

test: ## prove every crate, try every must-fail edit, run every program and test; ends with `N passed, 0 failed`
	@bash tests/run.sh

help: ## print these lines
	@sed -n 's/^\([a-z]*\):.*## \(.*\)/make \1\t\2/p' Makefile | expand -t 13

pairs: ## prove and build the program `pairs`, and run it on the sample
	@mkdir -p build
	@echo 'proving and building pairs (a few minutes the first time; build/pairs.log says more)'
	@(cd crates/pairs && rt run < /dev/null) > build/pairs.log 2>&1 || { tail -n 20 build/pairs.log; exit 1; }
	@cd sample && ../crates/pairs/out/pairs < storms.txt

lib: ## prove the library, and leave it for C, Rust and Python in build/lib
	@mkdir -p build/lib
	@echo 'proving and building the library (a few minutes the first time; build/lib.log says more)'
	@for crate in $(EXPORTS); do \
		(cd crates/$$crate && rt lib) || exit 1; \
	done > build/lib.log 2>&1 || { tail -n 20 build/lib.log; exit 1; }
	@bash bindings/join.sh $(EXPORTS)
	@echo 'build/lib/libmundeziwa.a and libmundeziwa.so; the headers are in include, what Rust and Python need is in bindings'

check: ## with CRATE=name: prove that crate and those that it needs
	@[ -n "$$CRATE" ] || { echo 'say which crate: make check CRATE=utf8 (crates.txt names them)' >&2; exit 2; }
	@$(CRATES) | grep -qxF "$$CRATE" || { echo "crates.txt has no crate $$CRATE; it has:" $$($(CRATES)) >&2; exit 2; }
	@cd "crates/$$CRATE" && rt check

bench: lib ## names, records, lists, the search and the report beside other programs, in one run
	@mkdir -p build/bench
	@(cd crates/bench_find && rt lib) > build/bench/bench_find.log 2>&1 || { tail -n 20 build/bench/bench_find.log; exit 1; }
	@bash bench/build.sh
	@./build/bench/occurrence
	@echo
	@./build/bench/names
	@echo
	@./build/bench/records
	@echo
	@./build/bench/lists
	@echo
	@python3 bench/report.py

clean: ## remove all that the others make: out in each crate, build, and the folders of cargo and Python
	@rm -rf crates/*/out build bindings/rust/target tests/*/target bench/*/target
	@find bindings tests bench -name __pycache__ -prune -exec rm -rf {} +
