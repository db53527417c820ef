# Reads words.txt, the first file: words[KIND, NUMBER]. The programs beside this one take their words from there.

FNR == 1 { part++ }

part == 1 && NF > 2 && $1 !~ /^#/ {
    key = $1 SUBSEP $2
    sub(/^[^ ]+ +[^ ]+ +/, "")
    words[key] = $0
}

part == 1 { next }

# The text with each {key} replaced by the value.
function put(text, key, value,    at, done) {
    key = "{" key "}"
    while (at = index(text, key)) {
        done = done substr(text, 1, at - 1) value
        text = substr(text, at + length(key))
    }
    return done text
}
