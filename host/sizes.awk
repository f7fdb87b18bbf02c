# From the lines of signatures.awk, the sizes of the structs and the places of their fields on x86-64, as assertions for
# the C compiler or, with rust=1, for the Rust compiler.

# Prints one assertion.
function claim(c, rs, bytes) {
    if (rust) print "const _: () = assert!(core::mem::" rs " == " bytes ");"
    else print "_Static_assert(" c " == " bytes ", \"" c "\");"
}

/^[A-Z]/ {
    name = substr($0, 1, index($0, "{") - 1)
    count = split(substr($0, length(name) + 2), fields, ",")
    for (nth = 1; nth <= count; nth++) {
        if (fields[nth] !~ /(u64|i64|usize)}*$/) print "a field that is not of 8 bytes: " $0
        split(fields[nth], words, " ")
        claim("offsetof(Hindraloha" name ", " words[1] ")", "offset_of!(ffi::" name ", " words[1] ")", 8 * (nth - 1))
    }
    claim("sizeof(Hindraloha" name ")", "size_of::<ffi::" name ">()", 8 * count)
}
