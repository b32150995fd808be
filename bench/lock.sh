#!/bin/sh
# Says how many turns a second a lock gives to 1, 2, 4 and 16 threads, and how much processor time the threads that wait take while one seat
# holds its turn for a second.
# Usage: bench/lock.sh PROGRAM   where PROGRAM is the built lock_turns, as in bench/lock.sh crates/lock_turns/out/lock_turns
# Wanted: while a turn is held, the threads that wait take less than a hundredth of a processor.
set -eu
times=$(mktemp)
trap 'rm -f "$times"' EXIT
for threads in 1 2 4 16; do
    turns=$((1600000 / threads))
    /usr/bin/time -f '%e %U %S' -o "$times" "$1" "$threads" "$turns" 0 > /dev/null
    awk -v threads="$threads" -v turns="$((threads * turns))" '{
        seconds = $1 > 0 ? $1 : 0.01
        printf "%2d threads: %.0f turns a second, %.2f s of processors in %.2f s\n", threads, turns / seconds, $2 + $3, $1
    }' "$times"
done
for threads in 2 16; do
    /usr/bin/time -f '%e %U %S' -o "$times" "$1" "$threads" 1 1000 > /dev/null
    awk -v threads="$threads" '{
        printf "%2d threads that hold their turn for a second each: %.3f s of processors in %.2f s\n", threads, $2 + $3, $1
    }' "$times"
done
