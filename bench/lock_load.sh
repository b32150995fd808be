#!/bin/sh
# Runs the test in which two threads append a hundred entries each, 1,000 times, while all processors are busy. Each run must end.
# Usage: bench/lock_load.sh TESTS [RUNS]   where TESTS is what rt test builds, as in
#        bench/lock_load.sh crates/history_lock/out/history_lock_tests
# Wanted: every run passes within a minute.
set -eu
runs=${2:-1000}
busy=
trap 'kill $busy 2> /dev/null || true' EXIT
for _ in $(seq "$(nproc)"); do
    sh -c 'while :; do :; done' &
    busy="$busy $!"
done
for test in two_threads_append_a_hundred_entries_each a_waiting_seat_parks_and_gets_its_turn; do
    for run in $(seq "$runs"); do
        timeout 60 "$1" "tests::$test" > /dev/null || { echo "$test: run $run failed"; exit 1; }
    done
    echo "$test: $runs runs passed"
done
