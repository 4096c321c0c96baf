#!/usr/bin/env bash
# Proves every crate, tries every must-fail edit, and runs every test and program; then runs the built program where its status is
# not 0, and compares docs/DEFINITIONS.md with the contract of `run`.
set -u
cd "$(dirname "${BASH_SOURCE[0]}")" || exit 1
command -v rt >/dev/null || { echo "check.sh: the Rattle kit's command 'rt' is not on the PATH" >&2; exit 2; }
rt ci || exit
docs/check_statuses.sh || exit
exec docs/check_definitions.sh
