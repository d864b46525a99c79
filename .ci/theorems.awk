# theorems.awk: reads files of theorems and prints 'CRATE FUNCTION' or 'CRATE TYPE.FUNCTION' for each function whose contract one of them says to leave one result.

# What the declarations of the file that was read show.
function close_file(t, c, x, s, n) {
    for (t in single) for (c in contract) {
        n = (t, c ".Post") in says
        for (x in short) if ((t, x) in says) {
            n += (x, c ".Post") in says
            for (s in statement) n += ((s, c ".clauses") in says) && ((s, x) in says)
        }
        if (n) print contract[c]
    }
    split("", contract); split("", says); split("", short); split("", statement); split("", single)
    name = ""
    aside = 0
}
function read(line, i, n, word) {
    n = split(line, word, /[ (){},]+/)
    for (i = 1; i <= n; i++) {
        says[name, word[i]]
        if (name in statement && (word[i] == "OneResult" || (word[i - 1] == "≡" && word[i] ~ /'(\.now)?$/))) single[name]
    }
}
FNR == 1 { close_file() }
/^ *[{]-/ { aside = 1 }
aside { if (/-[}]/) aside = 0; next }
{ sub(/(^| )--.*/, "") }
$1 == "use" && $3 == "as" && $2 ~ /^Rattle\..*\.(proofs|specs\.contracts)\./ {
    path = $2; sub(/^Rattle\./, "", path); sub(/\.Reads$/, "", path); sub(/\.(proofs|specs\.contracts)\./, " ", path)
    contract[$4] = path
    next
}
NF == 0 || $1 == "use" || $1 == "module" { name = ""; next }
/^ *((abbrev|pub) )*[^ ]+ : / {
    name = $0; sub(/ : .*/, "", name)
    is_short = name ~ /abbrev /; is_public = name ~ /pub /
    sub(/.* /, "", name)
    if (is_short) short[name]; else if (is_public) statement[name]; else name = ""
    if (name != "") read($0)
    next
}
name != "" && $1 == name && !is_short { name = "" }
name != "" { read($0) }
END { close_file() }
