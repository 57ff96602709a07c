#!/bin/sh
# Times GAP's package FGA on the same systems that the bench measures, and checks that GAP finds
# the same ranks and memberships. Without GAP it says so and measures nothing.
set -e
here=$(cd "$(dirname "$0")" && pwd)
if ! command -v gap >/dev/null 2>&1; then
    echo "gap is not installed: nothing is measured"
    exit 0
fi
systems=$(mktemp)
trap 'rm -f "$systems"' EXIT
cargo run --release --quiet --manifest-path "$here/../reference/Cargo.toml" --bin gap_systems >"$systems"
gap -q "$systems" "$here/measure.g" </dev/null
