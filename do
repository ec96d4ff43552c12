#!/usr/bin/env bash
# The commands of a working day. Without one of these words it lists them.
set -eu
cd "$(dirname "$0")"

# The crates of this repository that a crate stands on, lowest first, and then itself.
chain() {
  local low
  for low in $(sed -nE "s/^$1( [^:]*)?: *//p" crates.txt); do
    if [ -d "crates/$low" ]; then chain "$low"; fi
  done
  printf '%s\n' "$1"
}

#: prove                prove and build the program, for ./spindle-run, with a line a crate and its time
prove() {
  local crate words start said
  said=$(mktemp)
  for crate in $(chain spindle_run | awk '!seen[$0]++'); do
    start=$SECONDS words="lib"
    if [ -e "crates/$crate/src/main.rt" ]; then words="run -- cut 0 0"; fi
    if ! (cd "crates/$crate" && rt $words) >"$said" 2>&1 </dev/null; then
      cat "$said"
      printf '%s: not proved\n' "$crate" && return 1
    fi
    printf '%s: proved in %d s\n' "$crate" $((SECONDS - start))
  done
  touch crates/spindle_run/out/spindle_run
  printf 'all: proved in %d min; ./spindle-run runs what was proved\n' $(((SECONDS + 59) / 60))
}

#: add-to FOLDER        put the library's crates, and their lines of crates.txt, into another repository
add-to() {
  local crate to=${1:?which folder}
  for crate in $(chain spindle | awk '!seen[$0]++'); do
    if [ -e "$to/crates/$crate" ] || grep -qsE "^$crate[ :]" "$to/crates.txt"; then
      printf '%s has %s already: nothing more was changed\n' "$to" "$crate" && return 1
    fi
  done
  mkdir -p "$to/crates"
  if [ -s "$to/crates.txt" ] && [ -n "$(tail -c 1 "$to/crates.txt")" ]; then echo >>"$to/crates.txt"; fi
  for crate in $(chain spindle | awk '!seen[$0]++'); do
    mkdir "$to/crates/$crate"
    tar -c -C "crates/$crate" --exclude=faults --exclude=out . | tar -x -C "$to/crates/$crate"
    grep -E "^$crate[ :]" crates.txt >>"$to/crates.txt"
  done
  cp LICENSE "$to/crates/spindle/"
  printf "A crate of yours, once rt new has made it: a line 'mine: spindle' in %s/crates.txt; 'mine may_wait=N: spindle' with the N that rt verdict prints.\n" "$to"
  if [ "$(cat "$to/HANDLES" 2>/dev/null)" != "$(cat HANDLES)" ]; then
    printf "%s/HANDLES must hold this line: %s\n" "$to" "$(cat HANDLES)"
  fi
}

#: check [CRATE..]      prove the crates (all of them, where none is named) over what earlier checks kept
check() {
  if [ $# = 0 ]; then rt all check; fi
  for crate; do (cd "crates/$crate" && rt check); done
}

#: test [CRATE..]       the quick one, of some minutes: the names in the documents, and the tests, with nothing proved, those named
#:                      refused_ with each of their allocations refused in turn
test() {
  .ci/documents
  .ci/tests "$@"
}

#: soak [SECONDS]       play uneven jobs in each kind of lock for so long (15), with nothing proved, and check each answer
soak() {
  local seconds=${1:-15}
  # A lock's rounds go on where the time is over, and beside proofs threads that meet are slow.
  (cd crates/spindle_bench && rt try --seconds $((600 + 2 * seconds)) -- soak "$seconds")
}

#: edits CRATE..        try the crates' must-fail edits: the prover must refuse each in the function that it changes
edits() {
  local crate
  for crate in "${@:?which crate}"; do (cd "crates/$crate" && rt lib); done
  .ci/edits "$@"
}

#: bench [check]        time the rounds of locks, as THREADS, SHAPE and POOL say, or only check their results
bench() {
  (cd crates/spindle_bench && rt run --cpu "${CPU:-x86-64-v3}" -- "$@")
}

#: format [CRATE..]     put the crates' files (all, where none is named) into the layout without which the gate proves no crate
format() {
  local crate
  for crate in ${*:-$(.ci/crates .)}; do
    (cd "crates/$crate" && rt fmt)
  done
}

#: figures              lines of code, specs and proofs of each crate, its edits, and what is longest in it
figures() { .ci/figures; }

#: costs CRATE          what the crate's functions cost in its last check from nothing by one job, the dearest first
costs() { .ci/costs "${1:?which crate}"; }

case ${1:-} in
  prove | add-to | check | test | soak | edits | bench | format | figures | costs) "$@" ;;
  *) sed -n 's|^#: |./do |p' do && exit 2 ;;
esac
