# For bench/stack: reads Rattle sources and prints each line that holds an array which is no table of a paper, or copies such a table. A table is a `const` whose
# values are written out, and is lent as `&NAME` or is a `Table` of lent columns. A slice that is lent to read, an index and an attribute are no arrays. Contracts are passed over.
FNR == 1 { table = 0; split("", tables) }
{
    code = $0
    sub(/[ \t]*\/\/.*/, "", code)
    gsub(/&('[a-z]+ )?\[(f64|i8)\]|#!?\[/, "", code)
    row = 0
}
code ~ /^ *(ghost|requires|ensures) / { next }
code ~ /^ *(pub(\(crate\))? )?const / {
    table = 1
    name = code; sub(/:.*/, "", name); sub(/.* /, "", name)
    if (code ~ /: \[/) { tables[name] = 1 }
}
table { row = code ~ /= \[[^]]*;/ }
!table {
    row = code ~ /(^|[^A-Za-z0-9_)\]])\[/
    for (name in tables) { if (code ~ ("(^|[^&A-Za-z0-9_])" name "([^A-Za-z0-9_]|$)")) { row = 1 } }
}
row { print FILENAME ", line " FNR ": " $0 }
code ~ /;$/ { table = 0 }
