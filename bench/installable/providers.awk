# The worst case for a scan of a name's providers: 2,000 rows provide a name and are lost one by one, in the order in
# which they stand, while 2,000 clauses rest on it.
function row(name, provides, depends) {
    print "Package: " name "\nVersion: 1\nArchitecture: all\nProvides: " provides "\nDepends: " depends "\n"
}
BEGIN {
    count = 2000
    for (i = 0; i < count; i++) row("provider" i, "virtual", i == 0 ? "last" : "provider" i - 1)
    for (i = 0; i < count; i++) row("user" i, "", "virtual")
    row("last", "", "nowhere")
}
