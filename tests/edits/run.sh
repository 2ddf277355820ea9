#!/usr/bin/env bash
# Tries the edits of this folder, which the gate leaves out for their price: the prover must refuse each.
#
#     tests/edits/run.sh [CRATE..]
#
# It works on a clone of what is committed. A crate costs its proof, and half a minute for each edit.
set -eu
here=$(cd "$(dirname "$0")" && pwd)
[ "$#" -gt 0 ] || set -- $(cd "$here" && ls -d */ | tr -d /)
room=$(mktemp -d)
trap 'rm -rf "$room"' EXIT
git clone -q "$here/../.." "$room/tree"
cd "$room/tree"
for crate in "$@"; do
    mkdir -p "crates/$crate/must-fail"
    cp "tests/edits/$crate/"*.edit "crates/$crate/must-fail/"
done
rt must-fail "$@"
