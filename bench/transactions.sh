#!/bin/sh
# Times transactions over bases of several sizes: each begins, makes one change, asks one thing and is given up. The time is that between the two lines that the
# program prints, of which the first comes when the facts are opened (package strace). Prints a table for docs/PERFORMANCE.md.
# Usage: bench/transactions.sh PROGRAM [LARGEST]   as in   bench/transactions.sh crates/transaction_turns/out/transaction_turns
# LARGEST is the number of facts of the largest base, 1,000,000 unless it is given; the other is a hundredth of it.
# Wanted: a transaction over the largest base in at most twice the time of one over the other.
set -eu
program=$(realpath "$1")
largest=${2:-1000000}
count=20000
here=$(dirname "$(realpath "$0")")
ontology=$here/../examples/university/university.ofn
folder=$(mktemp -d)
trap 'rm -rf "$folder"' EXIT
cd "$folder"

# The change meets what is stored of its person in both bases, and the ask finds what it inserted.
echo 'INSERT DATA { <http://u.example/person000000> a <http://u.example/Student> }' > enrols.ru

# timed FACTS: the milliseconds of the transactions, of the fastest of three runs.
timed() {
    awk -f "$here/university.awk" -v facts="$1" > "$1.nt"
    for run in 1 2 3; do
        strace --seccomp-bpf -f -ttt -e trace=write -o trace "$program" "$ontology" "$1.nt" enrols.ru "$count" > out
        [ "$(cat out)" = "opened
transactions $count answers 1" ] || { echo "printed: $(cat out)" >&2; exit 1; }
        awk '/"opened/ { first = $2 } /"transactions/ { printf "%.0f\n", ($2 - first) * 1000 }' trace
    done | sort -n | head -n 1
}

most=$(timed "$largest"); least=$(timed $((largest / 100)))
echo "| what | time | peer | ratio |"
echo "| --- | --- | --- | --- |"
echo "| $count transactions over $largest facts | $most ms | over $((largest / 100)) facts: $least ms | $(awk -v a="$most" -v b="$least" 'BEGIN { printf "%.2f", a / (b > 0 ? b : 1) }') |"
