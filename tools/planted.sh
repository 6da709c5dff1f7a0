#!/usr/bin/env bash
# Tries edits quickly: `bash tools/planted.sh CRATE..` applies each crates/CRATE/must-fail/*.edit and crates/CRATE/planted/*.edit, one at a
# time, to a copy of the repository and checks that crate over what earlier checks kept. It says of each edit whether the prover refuses it,
# with the first error's place. It is no part of the gate: `rt ci` tries the must-fail edits.
set -u
cd "$(dirname "$0")/.."
here=$(pwd)
copy=$(mktemp -d)
trap 'rm -rf "$copy"' EXIT
tar -c --exclude=out crates crates.txt | tar -x -C "$copy"
kept=0
for crate in "$@"; do
  cd "$copy/crates/$crate" || exit 2
  rt check >"$copy/out" 2>&1 || { echo "$crate: not proved without an edit"; tail -n 3 "$copy/out"; continue; }
  for edit in "$here"/crates/"$crate"/must-fail/*.edit "$here"/crates/"$crate"/planted/*.edit; do
    [ -e "$edit" ] || continue
    file=$(sed -n 's/^file: //p' "$edit")
    path="$copy/crates/$crate/$file"
    cp "$path" "$copy/kept"
    if ! python3 - "$edit" "$path" <<'PY'
import sys
edit, path = sys.argv[1:]
text, old = open(path).read(), None
for line in open(edit).read().split('\n'):
    if line.startswith('old: '):
        old = line[5:]
    elif line.startswith('new:'):
        if text.count(old) != 1:
            sys.exit('the old text stands there %d times' % text.count(old))
        text = text.replace(old, line[5:])
open(path, 'w').write(text)
PY
    then
      echo "$crate/$(basename "$edit" .edit): BAD EDIT"
    elif rt check >"$copy/out" 2>&1; then
      echo "$crate/$(basename "$edit" .edit): STILL PROVED"
      kept=$((kept + 1))
    else
      echo "$crate/$(basename "$edit" .edit): refused: $(grep -v '^so far' "$copy/out" | grep -m1 -E 'error|found no proof|not proved' | sed "s,$copy/,," | cut -c1-220)"
    fi
    cp "$copy/kept" "$path"
  done
done
echo "still proved: $kept"
