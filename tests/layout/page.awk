# The layouts of docs/RULES.md as C: AT_ and WIDTH_ for each field of a rule's table of offsets, by the rule's number and the field's name.
/^\*\*[0-9]+\.[0-9]+\*\* / { rule = $1; gsub(/\*/, "", rule); sub(/\./, "_", rule) }
/^\| [0-9]+ \| [0-9]+ \| `[a-z_]+`/ {
    field = $6
    gsub(/[`,:;]/, "", field)
    print "#define AT_" rule "_" field " " $2
    print "#define WIDTH_" rule "_" field " " $4
}
