#!/usr/bin/env bash
# Holds the file of the C functions and their declarations for C and for Rust against the template of them all, and the texts of errors
# against their table, and prints a line for each that is as it should be: 'ok NAME'. Any other line tells what is not.
set -u
cd "$(dirname "$0")/.." || exit 1
python3 crates/fastlanes_c/blocks/write.py --check
python3 crates/fastlanes_format/write_errors.py --check
