# What can be done here. `make` alone lists it.
.PHONY: help demo test prove build package release bench docs lint

help: ## list these commands
	@sed -n 's/^\([a-z]*\):.*## /make \1\t/p' Makefile | expand -t 14

demo: ## run a small service from the wheel of dist/; ARGS="--store etcd" and so on
	@tools/demo $(ARGS)

test: ## test this checkout over what was built of it, in five minutes, without the kit
	@tests/run $(ARGS)

prove: ## prove, build and run all crates with the kit, in an hour or two
	@tools/proof-costs $(ARGS) rt ci

build: ## prove and build the libraries and programs, and nothing that stands already
	@tools/build libhourstable.so libhourstable.a hourstable slicer_run slicer_live

package: ## make dist/ with the wheel, and first prove what is not proved of these sources
	@tools/package --dist $(ARGS)

release: ## run what is too long for the gate: all wrong bodies, each refused allocation; hours
	@tools/release

bench: ## measure the steps of the machines at two sizes
	@bench/run

docs: ## make build/API.md of the sources, and check the pages
	@docs/api build/API.md && tests/docs/run

lint: ## check types, form and scripts
	@tools/lint
