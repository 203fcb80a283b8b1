#!/bin/sh
# Runs darwin on many files, one job a file, as many at once as there are processors, by GNU parallel.
#
# usage: bench/many.sh [--part K/N] DIR SECONDS FILE.. > SUMMARY
#
# The answer to each FILE goes to DIR, as its name with .ans for its ending, so no two may have one name. A line of the
# summary has the file, the exit status (124: it was ended after SECONDS) and the first line of the answer. `darwin` has to
# be on the PATH. With --part only every N-th file is run, from the K-th on: N calls with K from 1 to N, on as many machines
# that share the files, run them all. Or `--sshlogin` of parallel, set in PARALLEL, shares the jobs of one call out.
set -eu
usage() {
  sed -n 's/^# usage: /usage: /p' "$0" >&2
  exit 64
}
part=
if [ "${1-}" = --part ]; then
  [ $# -ge 2 ] || usage
  part=$2
  shift 2
fi
[ $# -ge 3 ] || usage
dir=$1
seconds=$2
shift 2
mkdir -p "$dir"
one() {
  name=$(basename "$1" .p)
  set -- "$1" "$dir/$name.ans"
  # (a name that darwin does not take, as one with a blank, is not told)
  if printf '%s\n' "$name" | LC_ALL=C grep -qx '[!-~]\{1,200\}'; then
    told=--name=$name
  else
    told=--name=stdin
  fi
  status=0
  timeout "$seconds" darwin "$told" < "$1" > "$2" || status=$?
  echo "$1 $status $(head -n 1 "$2")"
}
if [ "$1" = --one ]; then
  one "$2"
  exit
fi
twice=$(for file in "$@"; do basename "$file" .p; done | sort | uniq -d | head -n 1)
if [ "$twice" ]; then
  echo "$0: two files have the name $twice" >&2
  exit 65
fi
if [ "$part" ]; then
  from=${part%/*}
  each=${part#*/}
  number=0
  count=$#
  while [ "$number" -lt "$count" ]; do
    number=$((number + 1))
    if [ $(((number - from) % each)) -eq 0 ]; then
      set -- "$@" "$1"
    fi
    shift
  done
  [ $# -ge 1 ] || exit 0
fi
exec parallel --will-cite --keep-order "$0" "$dir" "$seconds" --one {} ::: "$@"
