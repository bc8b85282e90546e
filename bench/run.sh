#!/bin/sh
# Tests the fast engine, then measures, or with the first word `caps` asks at several caps, with `beside` measures two programs,
# with `files` writes the files that are timed; the other arguments go to `bench run` or to the verb. Paths count from the
# repository root.
set -eu
cd "$(dirname "$0")/.."
bench() {
    cargo run --release --quiet --offline --manifest-path bench/Cargo.toml -- "$@"
}
verb=run
case "${1:-}" in
caps | beside | files)
    verb=$1
    shift
    ;;
esac
bench test >&2
bench "$verb" "$@"
