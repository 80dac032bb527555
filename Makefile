# The two commands of the README. Each does its own set-up.
IMAGE ?= samples/forest.img

.PHONY: list test

# List an image: `make list`, or `make list IMAGE=file`.
list:
	@scripts/list '$(IMAGE)'

# Prove everything, try the edits that must fail, run the programs, and compare with the Rust.
test:
	@scripts/test
