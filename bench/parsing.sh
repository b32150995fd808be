#!/bin/sh
# Times how an ontology's text is parsed, by texts of 8 and 16 MiB: `read_tree` reads each file, looks at its UTF-8, cuts its tokens, builds its tree, drops
# it and ends. Beside it a plain copy of the same file. The time is that of the whole run, reading the file included.
# Usage: bench/parsing.sh PROGRAM   as in   bench/parsing.sh crates/read_tree/out/read_tree
# Wanted: at least 40 MB/s, and half of the text in about half of the time and of the memory. On a busy machine the processor's time, called work, tells more.
set -eu
program=$1
folder=$(mktemp -d)
trap 'rm -rf "$folder"' EXIT

# make NAME BYTES: a text of at most so many bytes, and how many axioms it has.
make() {
    awk -v most="$2" 'BEGIN {
        srand(7)
        text = "Prefix(:=<http://u.example/school/>)\nPrefix(rdfs:=<http://www.w3.org/2000/01/rdf-schema#>)\nPrefix(xsd:=<http://www.w3.org/2001/XMLSchema#>)\nOntology(<http://u.example/school>\n"
        size = length(text); printf "%s", text
        while (1) {
            kind = int(rand() * 10); a = int(rand() * 4000); b = int(rand() * 4000); i = int(rand() * 100000); j = int(rand() * 100000)
            if (kind < 3) text = sprintf("SubClassOf(:Class%04d :Class%04d)\n", a, b)
            else if (kind < 4) text = sprintf("SubClassOf(:Class%04d ObjectSomeValuesFrom(ObjectInverseOf(:teaches%02d) owl:Thing))\n", a, b % 100)
            else if (kind < 5) text = sprintf("\n# Class: :Class%04d (a class of the school)\nDeclaration(Class(:Class%04d))\nAnnotationAssertion(rdfs:label :Class%04d \"a class of the school\"@en)\n", a, a, a)
            else if (kind < 7) text = sprintf("ClassAssertion(:Class%04d <http://u.example/school/person%06d>)\n", a, i)
            else if (kind < 9) text = sprintf("ObjectPropertyAssertion(:teaches%02d :person%06d :course%06d)\n", b % 100, i, j)
            else text = sprintf("DataPropertyAssertion(:badge :person%06d \"%d\"^^xsd:integer)\n", i, j)
            size += length(text)
            if (size > most - 2) break
            printf "%s", text; if (kind != 4) axioms++; else axioms += 2
        }
        print ")"
        print axioms > "/dev/stderr"
    }' > "$folder/$1.ofn" 2> "$folder/$1.axioms"
}

# measure NAME: one line.
measure() {
    bytes=$(wc -c < "$folder/$1.ofn")
    /usr/bin/time -f '%e %M' -o "$folder/copy" cat "$folder/$1.ofn" > /dev/null
    said=$(/usr/bin/time -f '%e %M %U %S' -o "$folder/program" "$program" "$folder/$1.ofn")
    # The IRI of the ontology is one node more.
    [ "$said" = "nodes $(($(cat "$folder/$1.axioms") + 1))" ] || { echo "not parsed: $said" >&2; exit 1; }
    awk -v name="$1" -v bytes="$bytes" -v axioms="$(cat "$folder/$1.axioms")" -v copy="$(cat "$folder/copy")" '
    function speed(seconds) { return bytes / 1e6 / (seconds > 0 ? seconds : 0.01) }
    {
        split(copy, plain, " "); worked = $3 + $4
        printf "%s: %.1f MB, %d axioms, copied in %.2f s and %.0f MB, parsed in %.2f s (%.1f MB/s), %.2f s of them work (%.1f MB/s), and %.0f MB (%.1f times the text)\n", name, bytes / 1e6, axioms, plain[1], plain[2] / 1000, $1, speed($1), worked, speed(worked), $2 / 1000, $2 * 1024 / bytes
    }' "$folder/program"
}

make half 8388608
make whole 16777216
for name in half whole; do
    measure "$name"
done
