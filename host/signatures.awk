# Reads the entries' declarations from the Rattle sources, the Rust declarations or the C header, and prints one line for
# each entry, NAME(ARGUMENT TYPE, ..) ANSWER, and for each struct, STRUCT{FIELD TYPE, ..}, types by their Rust names.

# The text without blanks at either end.
function trimmed(text) {
    gsub(/^ +| +$/, "", text)
    return text
}

# A C type by its Rust name.
function rust_type(type) {
    if (type == "size_t") return "usize"
    if (sub(/^uint/, "u", type) || sub(/^int/, "i", type)) sub(/_t$/, "", type)
    sub(/^Hindraloha/, "", type)
    return type
}

# `const TYPE *NAME`, `TYPE *NAME` or `TYPE NAME` of C.
function from_c(part,    words, count, name, type) {
    count = split(part, words, " ")
    name = words[count]
    type = rust_type(words[count - 1])
    if (sub(/^\*/, "", name)) type = (words[1] == "const" ? "*const " : "*mut ") type
    return name " " type
}

# `NAME: TYPE` of Rust or Rattle; a slice of Rattle is passed as a pointer and a length.
function from_rust(part,    at, name, type, slice) {
    sub(/^pub /, "", part)
    at = index(part, ":")
    name = substr(part, 1, at - 1)
    type = trimmed(substr(part, at + 1))
    slice = type ~ /^&/
    if (slice) {
        sub(/^&mut \[/, "*mut ", type)
        sub(/^&\[/, "*const ", type)
        sub(/\]$/, "", type)
    }
    return name " " type (slice ? ", " name "_length usize" : "")
}

# All parts between two separators, each in its normal form.
function parts(text, separator,    each, count, nth, list) {
    count = split(text, each, separator)
    for (nth = 1; nth <= count; nth++) {
        each[nth] = trimmed(each[nth])
        if (each[nth] != "") list = list (list == "" ? "" : ", ") (in_c ? from_c(each[nth]) : from_rust(each[nth]))
    }
    return list
}

# What stands between the first two of these marks.
function between(text, first, last) {
    text = substr(text, index(text, first) + 1)
    return substr(text, 1, index(text, last) - 1)
}

# The first place of the text that has this form.
function name_of(text, pattern) {
    match(text, pattern)
    return substr(text, RSTART, RLENGTH)
}

# Prints every place of the text that has the form of an entry.
function print_entries(text, form,    found, answer) {
    while (match(text, form)) {
        found = substr(text, RSTART, RLENGTH)
        text = substr(text, RSTART + RLENGTH)
        answer = rust_type(name_of(found, in_c ? "^[A-Za-z]+" : "[A-Za-z]+$"))
        print name_of(found, "hindraloha_[a-z_]+") "(" parts(between(found, "(", ")"), ",") ") " answer
    }
}

# Prints every place of the text that has the form of a struct.
function print_structs(text, form,    found, name) {
    while (match(text, form)) {
        found = substr(text, RSTART, RLENGTH)
        text = substr(text, RSTART + RLENGTH)
        name = rust_type(name_of(found, "[A-Z][A-Za-z]+ *[{]"))
        sub(/ *[{]/, "", name)
        print name "{" parts(between(found, "{", "}"), in_c ? ";" : ",") "}"
    }
}

{
    sub(/\/\/.*/, "")
    all = all " " $0
}

END {
    while (at = index(all, "/*")) {
        rest = substr(all, at + 2)
        all = substr(all, 1, at - 1) " " substr(rest, index(rest, "*/") + 2)
    }
    gsub(/[ \t]+/, " ", all)
    in_c = FILENAME ~ /\.h$/
    entry = "hindraloha_[a-z_]+[(][^)]*[)]"
    print_entries(all, in_c ? "Hindraloha[A-Za-z]+ " entry ";" : entry " -> [A-Za-z]+")
    derived = "(#\\[derive[(][^)]*[)]\\] )?"
    in_rust = "#\\[repr[(]C[)]\\] " derived "pub struct [A-Za-z]+ *[{][^}]*[}]"
    print_structs(all, in_c ? "typedef struct Hindraloha[A-Za-z]+ *[{][^}]*[}]" : in_rust)
}
