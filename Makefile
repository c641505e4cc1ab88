# The verbs of this repository. Each is one line over a tool with its own `--help`; CONTRIBUTING.md says when to use which.
.PHONY: help setup run serve test check gate fmt gen docs release pictures python
SUDO := $(shell [ "$$(id -u)" = 0 ] || echo sudo)

help: ## prints these lines
	@sed -n 's/^\([a-z]*\):[^#]*## /    make \1\t/p' $(firstword $(MAKEFILE_LIST)) | expand -t 22

setup: python ## installs every Debian package that is missing, and offers the hook that checks commits
	tools/setup --all
	@echo 'To format and check what you commit: git config core.hooksPath .githooks'

run: python ## plays examples/tauros.json with the program gen1
	tools/setup plain && cargo run -p gen1-cli -- run examples/tauros.json

serve: python ## starts the ladder server at http://127.0.0.1:8000, with the page
	server/run

test: python ## runs the tests of the Rust workspace
	tools/setup plain && cargo test --workspace --features gen1/serde

check: ## checks the crates that changed, with those above them, over what earlier checks kept
	tools/quick

gate: ## every proof from nothing, and every test; .ci/run --plain needs no kit
	.ci/run

fmt: ## formats the sources that people write
	tools/fmt

gen: ## writes every generated file from its sources
	tools/gen && tools/api

docs: ## builds the site of the documentation
	tools/setup docs && tools/site

release: ## makes the folder of a release
	tools/release

pictures: ## takes the pictures of the page that the documents show
	web/test --pictures docs/pictures

# The tools are written in Python, which a bare Debian lacks.
python:
	@command -v python3 >/dev/null || (set -x; $(SUDO) apt-get update -q && $(SUDO) apt-get install -y -q python3)
