# Of counts by job: what a message over Bluetooth takes, written and read, ours beside Rust by hand. A row is a fragment size and a length.
{
    split($1, k, ":")
    n[k[1], k[2], k[3]] = $2
    if (k[1] == "ours" && k[2] == "written") row[++rows] = k[3]
}
END {
    print "| Bluetooth | written: ours | Rust | ratio | a fragment: ours | Rust | read: ours | Rust | ratio | a fragment: ours | Rust |"
    print "|---|---|---|---|---|---|---|---|---|---|---|"
    split("written read", what, " ")
    for (i = 1; i <= rows; i++) {
        split(row[i], part, "-")
        fragments = 1 + int((part[2] + 1) / (part[1] - 1))
        line = sprintf("| %d bytes at %d, %d fragments |", part[2], part[1], fragments)
        for (w = 1; w <= 2; w++) {
            ours = n["ours", what[w], row[i]]
            rust = n["rust", what[w], row[i]]
            line = line sprintf(" %d | %d | %.2f | %.0f | %.0f |", ours, rust, ours / rust, ours / fragments, rust / fragments)
        }
        print line
    }
}
