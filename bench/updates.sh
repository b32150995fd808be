#!/bin/sh
# Checks facts with `dlupdate` beside sqlite3 (package sqlite3), which loads the same facts into an indexed table in memory, and makes updates over bases of
# several sizes. The time of the updates alone is that between the opening of the first update's file and of the last one's (package strace). Prints a table
# for docs/PERFORMANCE.md.
# Usage: bench/updates.sh PROGRAM [LARGEST]   as in   bench/updates.sh crates/dlupdate/out/dlupdate
# LARGEST is the number of facts of the largest base, 1,000,000 unless it is given; the others are a tenth and a hundredth of it.
# Wanted: the largest base checked in at most sqlite3's time and in 450 MB, the tenth in a tenth of both; 1,000 updates of the tenth in three times its
# check; an update of the largest in at most twice the time of one of the hundredth.
set -eu
program=$(realpath "$1")
largest=${2:-1000000}
here=$(dirname "$(realpath "$0")")
ontology=$here/../examples/university/university.ofn
folder=$(mktemp -d)
trap 'rm -rf "$folder"' EXIT
cd "$folder"

for facts in $((largest / 100)) $((largest / 10)) "$largest"; do
    awk -f "$here/university.awk" -v facts="$facts" > "$facts.nt"
done

# 1,000 updates of one fact: a student more, a professor fewer, and so on. Each fact stands in all of the bases.
awk 'BEGIN {
    for (n = 0; n < 1000; n++) {
        file = sprintf("u%d.ru", n); i = int(n / 2) * 4
        if (n % 2) printf "DELETE DATA { <http://u.example/person%06d> a <http://u.example/Person> }\n", i > file
        else printf "INSERT DATA { <http://u.example/person%06d> a <http://u.example/Student> }\n", i > file
        close(file)
    }
}'
updates=$(awk 'BEGIN { for (n = 0; n < 1000; n++) printf "u%d.ru ", n }')

# timed NAME COMMAND..: the seconds and the megabytes of the fastest of three runs, in the files NAME.seconds and NAME.megabytes.
timed() {
    name=$1; shift
    for run in 1 2 3; do
        /usr/bin/time -f '%e %M' -o run "$@" > out 2> complaints
        cat run
    done | sort -n | head -n 1 > best
    awk '{ print $1 }' best > "$name.seconds"
    awk '{ printf "%.0f\n", $2 / 1000 }' best > "$name.megabytes"
}

cat > load.sql <<S
create table facts(subject text, predicate text, object text, point text, primary key (predicate, subject, object)) without rowid;
create index by_object on facts(predicate, object);
.mode ascii
.separator " " "\n"
.import $largest.nt facts
select count(*) from facts;
S
timed sqlite sqlite3 -init load.sql :memory: .quit
[ "$(cat out)" = "$largest" ] || { echo "sqlite3 loaded $(cat out) facts" >&2; exit 1; }
for facts in $((largest / 100)) $((largest / 10)) "$largest"; do
    timed "check$facts" "$program" check "$ontology" "$facts.nt"
    # shellcheck disable=SC2086
    timed "script$facts" "$program" script "$ontology" "$facts.nt" $updates
done

# alone FACTS: the milliseconds of 999 updates over so many facts, of the fastest of three runs.
alone() {
    for run in 1 2 3; do
        # shellcheck disable=SC2086
        strace --seccomp-bpf -f -ttt -e trace=openat -o trace "$program" script "$ontology" "$1.nt" $updates > out
        awk '/"u0.ru"/ { first = $2 } /"u999.ru"/ { printf "%.0f\n", ($2 - first) * 1000 }' trace
    done | sort -n | head -n 1
}

of() { cat "$1"; }
echo "| what | time | peak memory | peer | ratio |"
echo "| --- | --- | --- | --- | --- |"
ratio() { awk -v a="$1" -v b="$2" 'BEGIN { printf "%.2f", a / (b > 0 ? b : 0.01) }'; }
row() { echo "| $1 | $2 s | $3 MB | $4 | $5 |"; }
tenth=$((largest / 10)); hundredth=$((largest / 100))
row "check of $largest facts ($(($(wc -c < $largest.nt) / 1000000)) MB)" "$(of check$largest.seconds)" "$(of check$largest.megabytes)" "sqlite3: $(of sqlite.seconds) s, $(of sqlite.megabytes) MB" "$(ratio "$(of check$largest.seconds)" "$(of sqlite.seconds)")"
row "check of $tenth facts" "$(of check$tenth.seconds)" "$(of check$tenth.megabytes)" "check of $largest" "$(ratio "$(of check$tenth.seconds)" "$(of check$largest.seconds)")"
row "script of 1,000 updates over $tenth facts" "$(of script$tenth.seconds)" "$(of script$tenth.megabytes)" "check of $tenth" "$(ratio "$(of script$tenth.seconds)" "$(of check$tenth.seconds)")"
most=$(alone "$largest"); least=$(alone "$hundredth")
echo "| 999 updates over $largest facts | $most ms | | over $hundredth facts: $least ms | $(ratio "$most" "$least") |"
