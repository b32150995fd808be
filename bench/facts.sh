#!/bin/sh
# Reads a million facts with `dlupdate` and with serdi (package serdi), and says how their times and the program's memory compare. The program's file has
# one line more, its last, which is refused: `dlupdate check` reads each fact of the file before it and stops there, before any fact is compared with another.
# Usage: bench/facts.sh PROGRAM   as in   bench/facts.sh crates/dlupdate/out/dlupdate
# Wanted: the program takes at most twice serdi's time, and at most four times the file in memory. On a busy machine the processor's time, called work,
# tells more.
set -eu
folder=$(mktemp -d)
trap 'rm -rf "$folder"' EXIT
awk 'BEGIN {
    srand(7); for (i = 0; i < 1000000; i++) {
        kind = rand(); person = sprintf("<http://u.example/school/person%06d>", int(rand() * 300000))
        if (kind < 0.25) printf "%s <http://www.w3.org/1999/02/22-rdf-syntax-ns#type> <http://u.example/%s> .\n", person, rand() < 0.5 ? "Prof" : "Person"
        else if (kind < 0.8) printf "%s <http://u.example/%s> <http://u.example/courses/c%d> .\n", person, rand() < 0.5 ? "teaches" : "knows", int(rand() * 200000)
        else printf "%s <http://u.example/badge> \"%d\"^^<http://www.w3.org/2001/XMLSchema#integer> .\n", person, int(rand() * 1000000)
    }
}' > "$folder/f.nt"
cat > "$folder/o.ofn" <<'O'
Prefix(:=<http://u.example/>)
Ontology(
Declaration(Class(:Person))
Declaration(Class(:Prof))
Declaration(ObjectProperty(:teaches))
Declaration(ObjectProperty(:knows))
Declaration(DataProperty(:badge))
)
O
bytes=$(wc -c < "$folder/f.nt")
lines=$(wc -l < "$folder/f.nt")
/usr/bin/time -f '%e %M %U %S' -o "$folder/serdi" serdi -i ntriples -o ntriples "$folder/f.nt" > /dev/null
echo '<' >> "$folder/f.nt"
said=$(/usr/bin/time -q -f '%e %M %U %S' -o "$folder/program" "$1" check "$folder/o.ofn" "$folder/f.nt" || true)
case $said in
    *" line $((lines + 1))") ;;
    *) echo "not refused at the last line, which is $((lines + 1)): $said" >&2; exit 1 ;;
esac
awk -v bytes="$bytes" 'FNR == 1 { seconds[++n] = $1; memory = $2 * 1024; work[n] = $3 + $4 } END {
    printf "file %d bytes, serdi %.2f s and %.2f s of work, program %.2f s and %.2f s of work: %.2f times, of work %.2f times; memory %.2f times the file\n", bytes, seconds[1], work[1], seconds[2], work[2], seconds[2] / seconds[1], work[2] / work[1], memory / bytes
}' "$folder/serdi" "$folder/program"
