# Draws a condition as Graphviz text. The files: words.txt, the old chart, the new chart, what the program printed.
# After words.awk. Open, kept and covered nodes differ in shape, in colour and by their word.

BEGIN {
    look[1] = "shape=ellipse, fillcolor=\"#fff3c4\""
    look[2] = "shape=octagon, fillcolor=\"#f8c9c4\""
    look[3] = "shape=box, peripheries=2, fillcolor=\"#cfe8cf\""
}

{
    gsub(/["\r]/, "")
    split($0, field, ",")
}

part == 2 && FNR == 1 { alarm["old"] = field[2] }
part == 3 && FNR == 1 { alarm["new"] = field[2] }
part == 3 && FNR > 1 { row[FNR - 2] = operation(field[3], field[4], field[5], field[6]) }
part < 4 { next }

FNR == 1 {
    print "// The condition of two charts, as ./pick --picture prints it. An edge is a row of the new chart."
    print "digraph condition {"
    print "    label=\"" field[2] " open, " field[3] " kept, " field[4] " covered\";"
    print "    node [style=filled];"
    print "    start [shape=point];"
    node(field[1], field[1] < 4096 ? 1 : 2)
    print "    start -> n" field[1] ";"
    next
}

{
    node(field[1], 1)
    node(field[3], field[4])
    print "    n" field[1] " -> n" field[3] " [label=\"row " field[2] ": " row[field[2]] "\"];"
}

END { print "}" }

# An operation in words; an unknown one as its numbers.
function operation(op, a, b, c) {
    if (!(("op", op) in words)) return op "," a "," b "," c
    return put(put(put(put(words["op", op], "a", a), "b", b), "c", c), "signed c", signed(c))
}

# A constant read as two's complement of 32 bits, with its sign. By %.0f, as there are awks that cut %d at 31 bits and
# join larger numbers to a text as 2.14748e+09.
function signed(c) {
    return c < 2147483648 ? c : sprintf("%.0f", c - 4294967296)
}

function place(chart, number) {
    return chart " " number (number == alarm[chart] ? " (alarm)" : "")
}

# The line of a node, where it is met first. The pair (old p, new q) is 64 * p + q, the kept new place q is 4096 + q.
function node(number, mark,    q, places, word) {
    if (number in drawn) return
    drawn[number] = 1
    q = number % 64
    places = place("new", q)
    if (number < 4096) places = place("old", (number - q) / 64) ", " places
    word = ("mark", mark) in words ? words["mark", mark] : "mark " mark
    print "    n" number " [label=\"" places "\\n" word "\", " (mark in look ? look[mark] : "shape=plain") "];"
}
