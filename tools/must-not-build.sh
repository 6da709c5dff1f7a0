#!/usr/bin/env bash
# What must not build. Each crates/NAME/must-not-build/*.edit has four lines, 'file:', 'old:', 'new:' and 'error:'.
# The edit is applied to a copy of the repository's crates, and the compiler must refuse crate NAME, a program,
# with that error. The unedited program must build. Nothing is proved here.
set -eu
cd "$(dirname "$0")/.."

# compiles the program $1 of the repository copy in $2, with every library of the repository as source; `rt try` tries to run what
# builds, and says run=none where nothing was built
build() {
  (cd "$2/crates/$1" && rt try --steps 1000000 --seconds 10 2>&1) >"$2/said" || true
  cat "$2/said"
  ! grep -qE '^error|error\[|run=none' "$2/said"
}

bad=0
count=0
built=''
for edit in crates/*/must-not-build/*.edit; do
  [ -e "$edit" ] || continue
  count=$((count + 1))
  name=$(basename "$(dirname "$(dirname "$edit")")")
  copy=$(mktemp -d)
  tar -c --exclude=out crates crates.txt | tar -x -C "$copy"
  field() { sed -n "s/^$1: //p" "$edit"; }
  if [ "$built" != "$name" ] && ! build "$name" "$copy" >"$copy/out" 2>&1; then
    echo "$edit: $name does not build without the edit"
    head -n 5 "$copy/out"
    bad=1
  elif ! OLD=$(field old) NEW=$(field new) python3 - "$copy/crates/$name/$(field file)" <<'PY'
import os, sys
path, old, new = sys.argv[1], os.environ['OLD'], os.environ['NEW']
text = open(path).read()
if text.count(old) != 1:
    sys.exit('the old text does not stand there once')
open(path, 'w').write(text.replace(old, new))
PY
  then
    echo "$edit: BAD EDIT"
    bad=1
  else
    built=$name
    if build "$name" "$copy" >"$copy/out" 2>&1; then
      echo "$edit: BUILDS"
      bad=1
    elif grep -q "error\[$(field error)\]" "$copy/out"; then
      echo "$edit: refused by the compiler, $(field error)"
    else
      echo "$edit: refused, but not with $(field error)"
      head -n 5 "$copy/out"
      bad=1
    fi
  fi
  rm -rf "$copy"
done
echo "must not build: $count edits"
exit $bad
