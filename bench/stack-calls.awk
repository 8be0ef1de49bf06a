# For bench/stack: reads the sources of crates, and of those named in `asked` writes a Rattle library that has each public call, or of them those named in `only`,
# under a name which a linker sees, CRATE__CALL or CRATE__TYPE__CALL. Such a function takes numbers, makes the call's arguments of them, and gives the sum of all
# values of the result, so that the compiler leaves none out. The calls of a type by a trait `Basic` or `Gamma` are its public calls too; a generic function is none by
# itself, and stands in those that use it. Types are read where they are declared. What is not provided for stops it: an argument or a result
# of another kind, a public call of another form, a call asked for that is passed on from another crate.
function fail(why) { print "bench/stack: " why > "/dev/stderr"; failed = 1; exit 1 }
function before(mark, text) { sub(mark ".*", "", text); return text }
function behind(mark, text) { sub(".*" mark, "", text); return text }

FNR == 1 { split(FILENAME, path, "/"); crate = path[2]; owner = declared = "" }
/^impl / { owner = $2 }
/^pub fn [a-z0-9_]*</ { generic[crate "::" behind("fn ", before("<", $0))] = 1 }
/^pub trait (Basic|Gamma)[ :]/ { trait = $3; sub(/:.*/, "", trait) }
trait != "" && /^    fn / {
    text = $0; sub(/;.*/, "", text)
    method[trait, ++methods[trait]] = behind("fn ", before("[(]", text))
    takes[trait, methods[trait]] = before("[)]", behind("[(]", text))
    gives[trait, methods[trait]] = behind("-> ", text)
}
/^impl (Basic|Gamma) for / && index(" " asked " ", " " crate " ") { kept[++keeps] = $4; by[keeps] = $2; home[keeps] = crate }
/^    type Gamma = / { gamma[kept[keeps]] = $4; sub(/;/, "", gamma[kept[keeps]]) }
/^pub (struct|enum) .*[{]$/ { declared = $3; form[declared] = $2; full[declared] = crate "::" declared }
/^}/ { owner = declared = trait = "" }
declared != "" && /^    [A-Za-z]/ {
    sub(/^ +(pub )?/, ""); sub(/,$/, "")
    part[declared, ++parts[declared]] = $0
}
/^(    )?pub fn [a-z0-9_]*[(]/ && index(" " asked " ", " " crate " ") {
    while ($0 !~ /[)]/) { text = $0; if (getline <= 0) { break } sub(/^ +/, ""); $0 = text $0 }
    called[++calls] = crate "::" (owner == "" ? "" : owner "::") behind("fn ", before("[(]", $0))
    taken[calls] = before("[)]", behind("[(]", $0))
    given[calls] = $0 ~ /-> / ? behind("-> ", $0) : ""
    sub(/ [{]$/, "", given[calls])
    if (given[calls] == "Self") { given[calls] = owner }
}
/^ *pub [a-z].* fn / && index(" " asked " ", " " crate " ") { fail("a public call of a form that is not provided for: " $0) }
/^pub use / && index(" " asked " ", " " crate " ") {
    while ($0 !~ /;/) { text = $0; if (getline <= 0) { break } sub(/^ +/, ""); $0 = text $0 }
    list = before(";", $0)
    list = list ~ /[{]/ ? before("[}]", behind("[{]", list)) : behind("[: ]", list)
    n = split(list, each, /, */)
    for (i = 1; i <= n; i++) { if (each[i] != "") { passed[crate "::" each[i]] = 1 } }
}

# All values of `value`, which has the type `type`, as one number.
function all(value, type) {
    if (type == "f64") { return value }
    if (type == "u64") { return "(if " value " == 0 { 0.0 } else { 1.0 })" }
    if (type == "bool") { return "(if " value " { 1.0 } else { 0.0 })" }
    if (type ~ /^Option</) {
        sub(/^Option</, "", type); sub(/>$/, "", type)
        return "match " value " { Some(b) => " all("b", type) ", None => 0.0 }"
    }
    if (type ~ /^Result<.*, Refusal>$/) {
        sub(/^Result</, "", type); sub(/, Refusal>$/, "", type)
        return "match " value " { Ok(b) => " all("b", type) ", Err(e) => " all("e", "Refusal") " }"
    }
    if (!(type in full)) { fail("no declaration of the type " type) }
    needed[type] = 1
    return "all_" tolower(type) "(" value ")"
}

# What one part of a struct or enum adds to that number.
function added(type, i,    text) {
    text = part[type, i]
    if (form[type] == "struct") { return " + " all("a." before(":", text), behind(": ", text)) }
    if (text !~ /[(]/) { return "        " full[type] "::" text " => " i ".0,\n" }
    return "        " full[type] "::" before("[(]", text) "(b) => " all("b", before("[)]", behind("[(]", text))) ",\n"
}

# The function that gives that number for a type.
function summing(type,    i, text) {
    text = form[type] == "struct" ? "    0.0" : "    match a {\n"
    for (i = 1; i <= parts[type]; i++) { text = text added(type, i) }
    return "fn all_" tolower(type) "(a: " full[type] ") -> f64 {\n" text (form[type] == "struct" ? "" : "    }") "\n}\n"
}

# An argument of a type. The numbers that it is made of go to the list of parameters.
function made(name, type,    i, text) {
    if (type ~ /^(f64|u64|bool)$/) { parameters = parameters (parameters == "" ? "" : ", ") name ": " type; return name }
    if (form[type] != "struct") { fail("an argument that is neither a number nor a struct of numbers: " type) }
    for (i = 1; i <= parts[type]; i++) {
        text = text (i == 1 ? "" : ", ") before(":", part[type, i]) ": " made(name "_" before(":", part[type, i]), behind(": ", part[type, i]))
    }
    return full[type] " { " text " }"
}

# What a text of a trait says of the type that keeps it.
function own(text, type) { gsub(/Self::Gamma/, gamma[type], text); sub(/^self/, "a: " type, text); gsub(/Self/, type, text); return text }

END {
    if (failed) { exit 1 }
    for (k = 1; k <= keeps; k++) {
        for (m = 1; m <= methods[by[k]]; m++) {
            called[++calls] = home[k] "::" kept[k] "::" method[by[k], m]
            taken[calls] = own(takes[by[k], m], kept[k])
            given[calls] = own(gives[by[k], m], kept[k])
        }
    }
    if (keeps) { print "use properties::{Basic, Gamma};\n" }
    for (c = 1; c <= calls; c++) { delete passed[called[c]] }
    for (name in passed) {
        if (name !~ /::[A-Z]/ && !(name in generic) && (only == "" || index(" " only " ", " " name " "))) { fail(name " is passed on from another crate") }
    }
    for (c = 1; c <= calls; c++) {
        if (only != "" && !index(" " only " ", " " called[c] " ")) { continue }
        parameters = arguments = ""
        n = split(taken[c], each, /, */)
        for (i = 1; i <= n; i++) {
            if (each[i] != "") { arguments = arguments (arguments == "" ? "" : ", ") made(before(":", each[i]), behind(": ", each[i])) }
        }
        name = called[c]; gsub(/::/, "__", name)
        printf "#[unsafe(no_mangle)]\npub extern \"C\" fn %s(%s) -> f64 {\n    %s\n}\n\n", name, parameters, all(called[c] "(" arguments ")", given[c])
    }
    do {
        more = 0
        for (type in needed) { if (!(type in written)) { written[type] = more = 1; print summing(type) } }
    } while (more)
}
