#!/bin/sh
# Reads an office's store by the stock sqlite3, and tells what it finds.
#
# Usage: tests/peers/store.sh FILE, where FILE is a store that no office has open; or
# tests/peers/store.sh --by OFFICE, where OFFICE is the built program, which then writes a store of
# examples/archive.bag to be read, and one of each worked row that tells its facts. Debian's package
# sqlite3 is needed.
#
# A file must pass PRAGMA integrity_check and foreign_key_check, have the seven tables of the
# office, each STRICT and with no column that may be null, one row of the office, with id 1 and
# schema number 2, and facts that are told as docs/RULES.md says. The facts of a worked row must be
# the ones that are due for it. The exit status is 1 where any of these fails.
set -eu

usage() {
    echo "usage: $0 FILE, or $0 --by OFFICE" >&2
    exit 2
}

failed=0

ask() {
    sqlite3 -readonly -batch "$file" "$1"
}

# expect WHAT FOUND WANTED
expect() {
    if [ "$2" = "$3" ]; then
        [ -n "$quiet" ] || echo "ok: $1"
    else
        echo "not ok: $1"
        echo "  found:  $2"
        echo "  wanted: $3"
        failed=1
    fi
}

# look FILE: what each store must be
look() {
    file=$1
    expect "integrity_check" "$(ask 'PRAGMA integrity_check')" "ok"
    expect "foreign_key_check" "$(ask 'PRAGMA foreign_key_check')" ""
    expect "what refers to mail" \
        "$(ask "SELECT group_concat(name || ' ' || \"from\" || ' ' || \"to\") FROM (SELECT t.name, k.\"from\", k.\"to\" FROM pragma_table_list t JOIN pragma_foreign_key_list(t.name) k WHERE t.schema = 'main' AND k.\"table\" = 'mail' ORDER BY t.name, k.seq)")" \
        "fact sender sender,fact number number,testing_row sender sender,testing_row number number,testing_source sender sender,testing_source number number"
    expect "the tables, all STRICT" \
        "$(ask "SELECT group_concat(name || ' ' || strict) FROM (SELECT name, strict FROM pragma_table_list WHERE schema = 'main' AND name NOT LIKE 'sqlite_%' ORDER BY name)")" \
        "fact 1,fact_delays 1,mail 1,office 1,run 1,testing_row 1,testing_source 1"
    expect "no column may be null but the integer keys" \
        "$(ask "SELECT group_concat(t.name || '.' || c.name) FROM pragma_table_list t JOIN pragma_table_info(t.name) c WHERE t.schema = 'main' AND t.name NOT LIKE 'sqlite_%' AND NOT c.\"notnull\" AND NOT (c.pk AND t.name IN ('office', 'run', 'fact_delays'))")" \
        ""
    expect "one row of the office, id 1, schema number 2" "$(ask 'SELECT id, schema FROM office')" "1|2"
    expect "kinds of facts from 1 to 7, with a place at rows of unstable alone" \
        "$(ask 'SELECT count(*) FROM fact WHERE kind NOT BETWEEN 1 AND 7 OR (place > 0) <> (kind = 3)')" "0"
    expect "each fact names a kept message" \
        "$(ask 'SELECT count(*) FROM fact LEFT JOIN mail USING (sender, number) WHERE mail.body IS NULL')" "0"
    expect "one row on delays at most, id 1" "$(ask 'SELECT count(*) FROM fact_delays WHERE id <> 1')" "0"
    expect "as many runs as the office says are finished, numbered from 1" \
        "$(ask 'SELECT count(*), coalesce(min(number), 1), coalesce(max(number), 0) FROM run')" \
        "$(ask 'SELECT finished, 1, finished FROM office')"
}

# facts FILE: its facts as a worked row tells them, where the release team stands behind three other senders
facts() {
    sqlite3 -readonly -batch "$1" \
        "SELECT 'facts ' || ((SELECT count(*) FROM fact) + (SELECT count(*) FROM fact_delays))"
    sqlite3 -readonly -batch -separator ' ' "$1" \
        "SELECT 'fact', kind, sender, number, place FROM (SELECT kind, sender, number, place FROM fact UNION ALL SELECT 8, 3, number, 0 FROM fact_delays) ORDER BY kind, sender, number, place"
}

quiet=
case $# in
    2) [ "$1" = --by ] || usage ;;
    1) [ -f "$1" ] || usage ;;
    *) usage ;;
esac
if [ $# -eq 2 ]; then
    here=$(cd "$(dirname "$0")" && pwd)
    folder=$(mktemp -d)
    trap 'rm -rf "$folder"' EXIT
    written=$folder/store
    "$2" replay --conf "$here/../../examples/setup.conf" --db "$written" < "$here/../../examples/archive.bag" > /dev/null
else
    written=$1
fi
look "$written"
echo "mail $(ask 'SELECT count(*) FROM mail'), runs $(ask 'SELECT finished FROM office'), facts $(ask 'SELECT count(*) FROM fact'), of delays $(ask 'SELECT count(*) FROM fact_delays'), sources in testing $(ask 'SELECT count(*) FROM testing_source'), rows in testing $(ask 'SELECT count(*) FROM testing_row')"
if [ $# -eq 2 ]; then
    python3 "$here/../rows/stores.py" "$2" "$folder"
    quiet=yes
    for store in "$folder"/*.store; do
        look "$store"
        expect "the facts of $store" "$(facts "$store")" "$(cat "${store%.store}.facts")"
    done
    [ $failed -ne 0 ] || echo "ok: each of them as above, and its facts as due"
fi
exit $failed
