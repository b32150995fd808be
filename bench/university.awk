# Facts over the ontology of examples/university, consistent and each once, always the same for one count:
#   awk -f bench/university.awk -v facts=1000000
# Each person has four facts: a class, a badge, and two roles. One person in ten is a professor, who teaches and may head a department; the others are
# students, whom two professors mentor. Neighbouring lines speak of persons that lie far apart.
function person(i) { return sprintf("<http://u.example/person%06d>", i) }
function professor(i) { return person(int(i % int(people / 10)) * 10) }
BEGIN {
    type = "<http://www.w3.org/1999/02/22-rdf-syntax-ns#type>"
    integer = "<http://www.w3.org/2001/XMLSchema#integer>"
    people = int((facts + 3) / 4)
    stride = 104729
    for (n = 0; n < facts; n++) {
        kind = int(n / people)
        i = (n % people) * stride % people
        teaches = i % 10 == 0
        if (kind == 0) print person(i), type, teaches ? (i % 20 == 0 ? "<http://u.example/Prof>" : "<http://u.example/Staff>") : "<http://u.example/Student>", "."
        else if (kind == 1) print person(i), "<http://u.example/badge>", "\"" i "\"^^" integer, "."
        else if (kind == 2 && teaches) printf "%s <http://u.example/teaches> <http://u.example/course%06d> .\n", person(i), i * 7 % people
        else if (kind == 3 && teaches) printf "%s <http://u.example/headOf> <http://u.example/department%06d> .\n", person(i), i
        else print professor(i * 13 + kind), "<http://u.example/mentors>", person(i), "."
    }
}
