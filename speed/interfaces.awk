# Of counts by job: what a message takes on each interface of two, beside the single device.
{
    split($1, k, ":")
    n[k[2], k[3]] = $2
    if (k[1] == "ours" && k[2] == "device") row[++rows] = k[3]
}
END {
    print "| Row | device | main of two | times the device | vendor of two | times the device |"
    print "|---|---|---|---|---|---|"
    for (i = 1; i <= rows; i++) {
        one = n["device", row[i]]
        main = n["main", row[i]]
        vendor = n["vendor", row[i]]
        printf "| %s | %d | %d | %.3f | %d | %.3f |\n", row[i], one, main, main / one, vendor, vendor / one
    }
}
