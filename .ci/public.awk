# public.awk -v crate=CRATE: reads the sources of a crate, src/lib.rt first, and prints 'CRATE FUNCTION' or 'CRATE TYPE.FUNCTION' for each public one.

function path(name) { return module == "" ? name : module "::" name }
function parent(p) { return sub(/::[^:]*$/, "", p) ? p : "" }
function target(p, from) {
    if (sub(/^crate::/, "", p)) return p
    from = module
    sub(/^self::/, "", p)
    while (sub(/^super::/, "", p)) from = parent(from)
    return from == "" ? p : from "::" p
}
function export(p, name) {
    gsub(/[ \t]/, "", name)
    if (name == "") return
    to[++exports] = target(p (p == "" ? "" : "::") name)
    sub(/.*::/, "", name)
    by[exports] = path(name)
}
function exported(text, i, n, names, base) {
    sub(/^ *pub use +/, "", text)
    sub(/;.*/, "", text)
    base = text
    if (sub(/(::)?[{].*/, "", base) == 0) { base = ""; names[n = 1] = text }
    else { sub(/^[^{]*[{]/, "", text); if (text ~ /[{]/) odd = 1; sub(/[}].*/, "", text); n = split(text, names, ",") }
    for (i = 1; i <= n; i++) { if (names[i] ~ / as /) odd = 1; export(base, names[i]) }
}
function is_open(m) { return m == "" || m in reached || (m in declared && is_open(parent(m))) }
function is_public(item) { return item in reached || is_open(parent(item)) }
FNR == 1 {
    module = FILENAME; sub(/.*\/src\//, "", module); sub(/\.rt$/, "", module); sub(/(^|\/)(lib|mod)$/, "", module); gsub(/\//, "::", module)
    type = use = ""
}
{ sub(/\/\/.*/, "") }
use != "" || /^ *pub use / { use = use " " $0; if (/;/) { exported(use); use = "" } }
/^ *pub mod / { name = $3; sub(/[^A-Za-z0-9_].*/, "", name); declared[path(name)] }
/^(pub(\([a-z]+\))? )?(struct|enum) / { name = $0; sub(/.*(struct|enum) /, "", name); sub(/[^A-Za-z0-9_].*/, "", name); home[name] = path(name) }
/^impl/ { type = $0; sub(/^impl(<[^>]*>)? */, "", type); sub(/.* for /, "", type); sub(/[^A-Za-z0-9_].*/, "", type) }
/^}/ { type = "" }
/^ *pub ((const|unsafe|extern "C") )*fn / {
    name = $0; sub(/.*fn /, "", name); sub(/[^A-Za-z0-9_].*/, "", name)
    called[++functions] = type == "" ? name : type "." name
    item[functions] = type == "" ? path(name) : type in home ? home[type] : type
}
END {
    do {
        more = 0
        for (i = 1; i <= exports; i++) {
            whole = to[i]
            sub(/::[*]$/, "", whole)
            if (!(whole in reached) && is_public(by[i])) { reached[whole]; more = 1 }
        }
    } while (more)
    for (i = 1; i <= functions; i++) if (is_public(item[i])) print crate, called[i]
    if (odd) print crate, "(a pub use that is not read: nested, or with another name)"
}
