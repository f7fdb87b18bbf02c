# What the program `replay` should write, counted from the recorded list alone.
# An edit has three numbers to compare, a tree one and a node eight. A query, which is asked by words and by records, has
# two in each form (its answer, which is 0, and its hits), and a row three.
{ lines[$1]++ }
END {
    edits = lines["f"] + lines["i"] + lines["j"] + lines["d"] + lines["e"] + lines["m"] + lines["x"] + lines["c"]
    queries = lines["q"] + lines["p"]
    print "pools", lines["f"]
    print "inserts", lines["i"]
    print "inserts, end included", lines["j"]
    print "deletes", lines["d"]
    print "deletes, end included", lines["e"]
    print "delete-min", lines["m"]
    print "delete-max", lines["x"]
    print "clear", lines["c"]
    print "queries", lines["q"]
    print "queries, end included", lines["p"]
    print "rows", lines["r"]
    print "trees", lines["s"]
    print "nodes", lines["n"]
    print "ends of the list", lines["z"]
    print "other lines", NR - edits - queries - lines["r"] - lines["s"] - lines["n"] - lines["z"]
    print "numbers compared", 3 * edits + 4 * queries + 6 * lines["r"] + lines["s"] + 8 * lines["n"]
    print "differences", 0
}
