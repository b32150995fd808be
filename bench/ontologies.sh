#!/bin/sh
# Checks large ontologies with `dlupdate`, and says time and peak memory of each, beside a plain copy of the same file.
# Usage: bench/ontologies.sh PROGRAM   as in   bench/ontologies.sh crates/dlupdate/out/dlupdate
# Wanted: each compiled in at most 2 s and 500 MB; the 100,000 axioms read in at most 2 s and 400 MB, and half of them in about half the time;
# 100,000 facts over 4,000 classes, of which two are disjoint, checked in at most three times the time of as many over 40.
set -eu
program=$1
folder=$(mktemp -d)
trap 'rm -rf "$folder"' EXIT

# make NAME KIND: an ontology of that kind in the folder.
make() {
    awk -v kind="$2" 'BEGIN {
        print "Prefix(:=<http://u.example/>)\nOntology("
        if (kind == "chain") for (i = 1; i < 4000; i++) printf "SubClassOf(:C%d :C%d)\n", i - 1, i
        if (kind == "roles") for (i = 1; i < 4000; i++) printf "EquivalentObjectProperties(:p%d :p%d)\n", i - 1, i
        if (kind == "disjoint") { printf "DisjointClasses("; for (i = 0; i < 4000; i++) printf ":C%d ", i; print ")" }
        if (kind ~ /classes/) { for (i = 0; i < kind + 0; i++) printf "Declaration(Class(:C%d))\n", i; print "DisjointClasses(:C0 :C1)" }
        else if (kind + 0 > 0) { srand(7); for (i = 0; i < kind; i++) { a = int(rand() * 4000); b = int(rand() * 4000); printf "SubClassOf(:Class_with_a_long_name_%04d :Class_with_a_long_name_%04d)\n", a < b ? a : b, a < b ? b : a } }
        print ")"
    }' > "$folder/$1.ofn"
}

# facts CLASSES: 100,000 facts, each of someone else, in these classes in turn.
facts() {
    awk -v classes="$1" 'BEGIN {
        type = "<http://www.w3.org/1999/02/22-rdf-syntax-ns#type>"
        for (i = 0; i < 100000; i++) printf "<http://u.example/individual%06d> %s <http://u.example/C%d> .\n", i, type, i % classes
    }' > "$folder/$1.nt"
}

# measure NAME [FACTS]: one line.
measure() {
    bytes=$(cat "$folder/$1.ofn" ${2:+"$folder/$2"} | wc -c)
    /usr/bin/time -f '%e' -o "$folder/copy" cat "$folder/$1.ofn" ${2:+"$folder/$2"} > /dev/null
    /usr/bin/time -f '%e %M' -o "$folder/program" "$program" check "$folder/$1.ofn" ${2:+"$folder/$2"} > "$folder/said"
    awk -v name="$1" -v bytes="$bytes" -v copy="$(cat "$folder/copy")" '{
        printf "%s: %.1f MB, copied in %s s, checked in %.2f s (%.1f MB/s) and %.0f MB\n", name, bytes / 1e6, copy, $1, bytes / 1e6 / ($1 > 0 ? $1 : 0.01), $2 / 1000
    }' "$folder/program"
}

make chain chain
make roles roles
make disjoint disjoint
make half 50000
make whole 100000
for name in chain roles disjoint half whole; do
    measure "$name"
done
for classes in 40 4000; do
    make "over $classes classes" "$classes classes"
    facts "$classes"
    measure "over $classes classes" "$classes.nt"
done
