# Says a refusal in words. Given: number and position as the program printed them; line and byte, where that offset is
# in the file; size, the file's length. After words.awk.

function kind_of() {
    if (("row", number) in words) return "row"
    if (("call", number) in words) return "call"
    if (("end", number) in words && position == size) return "end"
    if (("byte", number) in words && (position > 0 || !(("whole", number) in words))) return "byte"
    return "whole"
}

END {
    kind = kind_of()
    if (!((kind, number) in words)) {
        print "number " number ", position " position
        exit
    }
    if (kind == "row") line = position + 2
    print put(put(put(words[kind, number], "line", line), "byte", byte), "position", position)
}
