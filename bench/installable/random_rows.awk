# Paragraphs of 63,000 packages with about 280,000 clauses, shaped like an archive: a few packages that many need, some
# virtual ones, some versioned clauses and alternatives, needs that seldom go in a ring, a few that nothing meets.
function needed(i) { return "libsome-package" int((rand() < 0.001 ? count : i) * rand() ^ 4) "-dev" }
function clause(i,    name) {
    if (i > 5000 && rand() < 1 / 20000) return "nowhere"
    if (rand() < 0.02) return "virtual" int(500 * rand())
    name = needed(i)
    if (rand() < 0.35) name = name " (>= " 1 + int(3 * rand()) ")"
    if (rand() < 0.1) name = name " | absent" int(1000 * rand())
    return name
}
BEGIN {
    srand(1)
    count = 63000
    for (i = 0; i < count; i++) {
        print "Package: libsome-package" i "-dev"
        print "Version: " 3 + int(9 * rand()) "." int(30 * rand()) "-" 1 + int(5 * rand())
        print "Architecture: amd64"
        if (i < 500 || rand() < 0.05) print "Provides: virtual" i % 500
        depends = clause(i)
        for (more = int(7.9 * rand()); more > 0; more--) depends = depends ", " clause(i)
        print "Depends: " depends "\n"
    }
}
