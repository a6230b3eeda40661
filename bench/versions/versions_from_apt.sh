#!/bin/sh
# Prints pairs of version texts, two lines each: what a relation of a package in apt's lists asks, and
# the version that the list has of the package that is asked for. Run apt-get update first.
# usage: versions_from_apt.sh [PAIRS]
set -eu
available=$(mktemp)
trap 'rm -f "$available"' EXIT
apt-cache dumpavail | grep -E '^(Package|Version|Depends|Pre-Depends|Recommends|Breaks|Replaces):' > "$available"
awk -v pairs="${1:-120000}" '
	FNR == NR {
		if ($1 == "Package:") name = $2
		if ($1 == "Version:") version[name] = $2
		next
	}
	/^(Depends|Pre-Depends|Recommends|Breaks|Replaces):/ {
		sub(/^[^:]*: */, "")
		count = split($0, relations, / *[,|] */)
		for (i = 1; i <= count; i++) {
			if (split(relations[i], words, /[ ():]+/) < 3) continue
			asked = relations[i]
			if (!sub(/^[^(]*\( *[<>=]+ */, "", asked)) continue
			sub(/ *\).*$/, "", asked)
			if (words[1] in version && printed++ < pairs) print asked "\n" version[words[1]]
		}
	}' "$available" "$available"
