# shellcheck shell=bash
# Sourced by ./bench, ./box and ./layers, from the repository's folder.

# Proves and builds a program where it is not there or older than a file that it is made of, and leaves in `run` how it is started.
# `rt run` builds the program and then runs it: here on no input, where it ends at once. A program that ./check built serves as well.
proved() { # WHO CRATE
  local program=crates/$2/out/$2
  if [ ! -x "$program" ] || [ -n "$(find crates crates.txt -name out -prune -o -newer "$program" \( -name '*.rt' -o -name '*.antt' -o -name crates.txt \) -print -quit)" ]; then
    echo "$1: proving and building, which takes long the first time" >&2
    . tools/apart.sh
    apart tools/progress --quiet --in "crates/$2" --rooms "$2" "$1" rt run
    leave
    touch "$program"
  fi
  # shellcheck disable=SC2034
  run=("$program")
}
