#!/usr/bin/env bash
# Scripts begin with it: the option --help, the folders, and how a script tells what it did.
# shellcheck disable=SC2034
if [ "${1-}" = --help ]; then
  sed -n '2,/^[^#]/s/^# \{0,1\}//p' "$0"
  exit
fi
top=$(cd "$(dirname "${BASH_SOURCE[0]}")/.." && pwd)
c=$top/c
# A folder of its own, whose file `log` has what the last command printed.
work=$(mktemp -d)
trap 'rm -rf "$work"' EXIT

say() { echo "$0: $*"; }

fail() {
  if [ -e "$work/log" ]; then tail -n 30 "$work/log" >&2; fi
  echo "$0: $*" >&2
  exit 1
}

# listed FOLDER: the paths of the files below it, in order.
listed() { (cd "$1" && find . ! -type d | LC_ALL=C sort); }

# lacks PART PROGRAM..: whether a program isn't here that a part needs, which then is left out.
lacks() {
  local program
  for program in "${@:2}"; do
    if ! command -v "$program" >/dev/null; then
      say "left out: $1, since there is no $program"
      return
    fi
  done
  return 1
}

# The names that a shared library shows, sorted; and that it is bound when it is loaded.
names_of() { "${NM:-nm}" -D --defined-only "$1" | awk '{ print $NF }' | LC_ALL=C sort; }
is_bound() { "${READELF:-readelf}" -dW "$1" | grep -q BIND_NOW || fail "$1 is not bound when it is loaded"; }

# blocks KIND DATABASE: the blocks of this kind in START_SQL's part on a database. It fails if there are none.
blocks() {
  awk -v begin="\`\`\`$1" -v part="$2" '/^## / { here = $0 ~ part } /^```/ { on = here && $0 == begin; next }
    on { some = 1; print } END { exit !some }' "$top/docs/START_SQL.md" || fail "START_SQL has no $1 on $2"
}
