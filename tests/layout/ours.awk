# The reads and numbers of each definition as C: READ_ and WIDTH_ for a field, NUMBERS_ for the other numbers in their order. A field is named by its
# definition, the record's number where there are several, and its name; a read that is no field, by its definition alone.

function flush(    text, several, record, token, word, numbers) {
    text = body
    several = gsub(/record \{/, "record {", text) > 1
    while (match(text, /record \{|[A-Za-z0-9_]+ = le(32|64) [a-z] [0-9]+|le(32|64) [a-z] [0-9]+|[A-Za-z][A-Za-z0-9_']*|[0-9]+/)) {
        token = substr(text, RSTART, RLENGTH)
        text = substr(text, RSTART + RLENGTH)
        split(token, word, " ")
        if (token == "record {")
            record++
        else if (token ~ /^[A-Za-z0-9_]+ = le/)
            read(name (several ? "_" record : "") "_" word[1], word[3], word[5])
        else if (token ~ /^le(32|64) /)
            read(name, word[1], word[3])
        else if (token ~ /^[0-9]/)
            numbers = numbers (numbers == "" ? "" : ", ") token
    }
    if (numbers != "")
        print "#define NUMBERS_" name " " numbers
    name = body = ""
}

function read(what, kind, at) {
    print "#define READ_" what " " at
    print "#define WIDTH_" what " " (kind == "le64" ? 8 : 4)
}

/^ *--/ { next }
{ sub(/ *--.*/, "") }
/^(use|abbrev|unfoldable|pub|data|record) / || /^$/ { flush(); next }
/^[a-z]/ && $1 != name { flush(); name = $1 }
{ body = body " " substr($0, /^[a-z]/ ? index($0, "=") + 1 : 1) }
END { flush() }
