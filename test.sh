#!/bin/sh
# Tests everything: the files' layout, every proof, every must-fail edit and every program; then the host side, linked with
# what was proved. Needs the Rattle kit; cargo comes from Debian's packages where it is missing. What is being done is told on
# standard error. An edit that cannot be tried fails it too. rt's verdict, "N passed, 0 failed", is held back until the host side has
# passed too: it is the last line printed.
set -eu
cd "$(dirname "$0")"
. host/scripts/program.sh
command -v cargo > /dev/null || { say "installing cargo"; apt-get update -qq && apt-get install -y -qq cargo; }
crates=$(grep -c '^[^#]*:' crates.txt)
edits=$(find crates -path '*/must-fail/*.edit' | wc -l)
say "1 of 3: the proofs of $crates crates, $edits edits that must be refused, and the programs; most of the time goes here"
kept=$(mktemp -d)
trap 'rm -rf "$kept"' EXIT
{ rt ci && status=0 || status=$?; echo "$status" > "$kept/status"; } |
    follow "$crates" "$edits" |
    awk -v kept="$kept" '
        /^rt: ok.*, [1-9][0-9]* bad/ { print > (kept "/bad") }
        NR > 1 { print line; fflush() }
        { line = $0 }
        END { print line > (kept "/last") }'
if [ -e "$kept/bad" ]; then
    say "an edit that must be refused could not be tried: each is named above, with BAD EDIT"
    exit 1
fi
if [ "$(cat "$kept/status")" -eq 0 ]; then
    say "2 of 3: the archive for C and Rust"
    build abi lib "$kept"
    say "3 of 3: the host side's tests"
    cargo test --quiet --release --offline --manifest-path host/Cargo.toml
    say "all has passed"
fi
cat "$kept/last"
exit "$(cat "$kept/status")"
