#!/bin/sh
# The shell scripts of the repository, as shellcheck sees them.
set -eu
# shellcheck source=lib/results
. "$TESTS/lib/results"

if ! command -v shellcheck >/dev/null; then
    skipped 'shellcheck on the scripts' 'it is not installed'
    exit
fi
cd "${TESTS%/*}"
for script in povfix .ci/run examples/* tools/* tests/run tests/*.sh tests/lib/*; do
    # (a folder may hold other things than scripts)
    case $(head -n 1 "$script") in
        '#!'*sh | '# shellcheck shell='*) equal "shellcheck finds nothing in $script" '' "$(shellcheck "$script" 2>&1 || true)" ;;
    esac
done
