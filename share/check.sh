#!/bin/sh
# Checks what stands in this folder and in tools, and says how much passed: the lints of mandoc, shellcheck,
# systemd-analyze, lintian, mypy and flake8, the tools' tests, and what the scripts do with small texts. With PROGRAM,
# the built program, it also tries the scripts on a store of examples/archive.bag, the tools over a service, and
# compares manual page and completions with the program's own help.
#
# Usage: share/check.sh [PROGRAM]
# The environment's OFFICE_PLAN and OFFICE_SYNC name the built office-plan and office-sync, if they aren't in
# crates/office_plan/out and crates/office_sync/out. What isn't installed is skipped, and told. Status 0: nothing failed,
# 1: something did, 2: the words are wrong.
set -u

if [ $# -gt 1 ]; then
    echo "usage: $0 [PROGRAM]" >&2
    exit 2
fi
program=
if [ $# -eq 1 ]; then
    program=$(realpath -e -- "$1") || exit 2
fi
share=$(cd "$(dirname "$0")" && pwd) || exit 1
cd "$share" || exit 1
plan=$(realpath -m -- "${OFFICE_PLAN:-$share/../crates/office_plan/out/office_plan}")
if [ -x "$plan" ]; then
    export OFFICE_PLAN="$plan"
else
    plan=/bin/true
fi
sync=$(realpath -- "${OFFICE_SYNC:-$share/../crates/office_sync/out/office_sync}")
if [ -x "$sync" ]; then
    export OFFICE_SYNC="$sync"
else
    sync=/bin/true
fi
work=$(mktemp -d)
trap 'rm -rf "$work"' EXIT
trap 'exit 1' HUP INT TERM
passed=0 failed=0
libraries=no
/usr/bin/python3 -c 'import apt_pkg, debian.deb822, jinja2, Levenshtein' 2> /dev/null && libraries=yes
export PYTHONDONTWRITEBYTECODE=1

# try WHAT COMMAND..: passes where the command ends with status 0.
try() {
    what=$1
    shift
    if "$@" > "$work/told" 2>&1; then
        passed=$((passed + 1))
    else
        failed=$((failed + 1))
        echo "failed: $what"
        sed 's/^/    /' "$work/told"
    fi
}

# try_by TOOL WHAT COMMAND..: the same, where the tool is installed.
try_by() {
    tool=$1
    shift
    if command -v "$tool" > /dev/null; then
        try "$@"
    else
        echo "skipped: $1: $tool isn't installed"
    fi
}

# try_tool WHAT COMMAND..: the same, where the libraries of the tools in Python are installed.
try_tool() {
    if [ "$libraries" = yes ]; then
        try "$@"
    else
        echo "skipped: $1: python3-apt, python3-debian, python3-jinja2 or python3-levenshtein isn't installed"
    fi
}

# ends STATUS COMMAND..: whether a command ends with this status.
ends() {
    due=$1
    shift
    "$@"
    found=$?
    [ "$found" -eq "$due" ] || { echo "status $found, due $due" && false; }
}

page_is_clean() {
    # Pages of other packages that aren't installed here aren't this page's fault, nor is mandoc's own list of pages.
    mandoc -T lint "$1" > "$work/lint" 2>&1
    ! grep -v -e 'referenced manual not found' -e 'outdated mandoc.db' "$work/lint"
}

links_are_there() {
    sed -n 's/^\.Xr \(office[a-z-]*\) 1.*/\1/p' man/*.1 | sort -u | while read -r name; do
        [ -f "man/$name.1" ] || { echo "man/$name.1 is missing" && exit 1; }
    done
}

units_are_known() {
    mkdir "$work/units" || return 1
    for unit in systemd/*; do
        sed 's|/usr/bin/office[a-z-]*|/bin/true|; /^Documentation=/d' "$unit" > "$work/units/${unit#systemd/}"
    done
    systemd-analyze verify "$work"/units/*
}

# Each script of the repository whose first line names a shell, and the completion for bash.
scripts_are_clean() (
    cd .. || exit 1
    grep -rlE --exclude-dir=.git --exclude-dir=out '^#!/bin/(ba)?sh' . | sort > "$work/scripts"
    ls share/completion/*.bash >> "$work/scripts"
    [ "$(wc -l < "$work/scripts")" -gt 10 ] || { cat "$work/scripts" && exit 1; }
    xargs shellcheck < "$work/scripts"
)

# The types of the tools, where Debian's libraries have some.
types_are_right() {
    mypy --config-file ../tools/setup.cfg --python-executable /usr/bin/python3 --cache-dir "$work/mypy" \
        ../tools/office_tools
}

# Each command of tools/bin stands in README.md, and has a manual page that tells the options of its help.
tool_options_are_told() {
    for file in ../tools/bin/office-*; do
        name=${file##*/}
        grep -q "^| \`$name\` |" README.md || { echo "README.md: $name" && return 1; }
        "$file" --help > "$work/help" || { echo "$name --help: status $?" && return 1; }
        sed -n 's/^  *\(-[^ ].*\)$/\1/p' "$work/help" | sed 's/  .*//' | grep -o -e '--[a-z][a-z-]*' | sort -u |
            sed 's/^--//' | grep -vx help > "$work/options"
        while read -r option; do
            grep -q -e "Fl -$option" "man/$name.1" || { echo "man/$name.1: --$option" && return 1; }
        done < "$work/options"
    done
}

# Bash completes an option of each command of tools/bin, as bash-completion calls the completion.
tool_options_are_completed() {
    cat > "$work/complete" << 'END'
. /usr/share/bash-completion/bash_completion
for file in tools/bin/office-*; do
    name=${file##*/}
    . <(sed "s/@COMMAND@/$name/" share/completion/tool.bash)
    COMP_WORDS=("$name" --) COMP_CWORD=1 COMP_LINE="$name --" COMP_POINT=$((${#name} + 3)) COMPREPLY=()
    $(complete -p "$name" | sed 's/.*-F \([^ ]*\) .*/\1/') "$name" -- "$name"
    [[ " ${COMPREPLY[*]} " == *" --help "* ]] || { echo "$name: ${COMPREPLY[*]}" && exit 1; }
done
END
    (cd .. && PATH=$PWD/tools/bin:$PATH bash --norc "$work/complete")
}

tools_are_tested() (
    cd .. && OFFICE=$program /usr/bin/python3 -m unittest discover -s tools/tests
)

make_reports() {
    cat > "$work/excuses" << 'END'
excuses 7 2025-04-01
c++lib 1.0-1 2:1.0-1+b1
 age 3 of 10
 too young
 new bug 1042
 missing on amd64
 blocked
 not a candidate
stuck - 2-1
 age 12 of 10
 candidate
END
    cat > "$work/update" << 'END'
update 7 2025-04-01
remove 3 accept old 1.0
remove 4 refuse gone 1.0 uninstallable amd64 app
easy 5 refuse c++lib/1.1-1 not a candidate
easy 6 refuse uninstallable arm64 libx1
easy 8 accept one 1.0 two 2:2.0~rc1
accept three 3
wait stuck 2-1 uninstallable amd64 stuck-bin
END
    cat > "$work/testing" << 'END'
testing 7
source c++lib 1.0-1
source one 1.0
binary all c++lib-doc 1.0-1 c++lib
END
}

# The pages of a run whose reports are in files; what is in them is for the tests of tools/tests.
pages_are_made() {
    mkdir "$work/folder" || return 1
    ../tools/bin/office-pages --excuses "$work/excuses" --update "$work/update" --testing "$work/testing" \
        "$work/folder" || return 1
    for file in index.html excuses.html excuses.json testing.html run/7.html source/c++lib.html style.css; do
        [ -s "$work/folder/$file" ] || { echo "$file is missing" && return 1; }
    done
}

# A grep-excuses whose wget hands out the file that was made.
excuses_are_grepped() {
    mkdir "$work/bin" || return 1
    printf '#!/bin/sh\nexec cat "%s"\n' "$work/folder/excuses.json" > "$work/bin/wget"
    chmod +x "$work/bin/wget"
    for source in c++lib stuck; do
        PATH=$work/bin:$PATH grep-excuses --no-conf --no-autoremovals "$source" >> "$work/grepped" || return 1
    done
    cat "$work/grepped"
    # What the excuses say, and what the update says.
    for line in 'c++lib (1.0-1 to 2:1.0-1+b1)' '    Blocked by a hint' 'stuck (- to 2-1)' \
        '    Waits: its move would leave stuck-bin uninstallable on amd64'; do
        grep -qxF -e "$line" "$work/grepped" || { echo "it lacks: $line" && return 1; }
    done
}

# The bag of the examples' indexes: four things are left out. What is in it is for the tests of tools/tests.
indexes_are_read() {
    ../tools/bin/office-from-packages --uploaded 2025-03-01 --run 2025-03-06 --sources ../examples/Sources \
        "$work/week" ../examples/Packages > "$work/counts" 2> "$work/left" || return 1
    cat "$work/counts" "$work/left"
    [ "$(cat "$work/counts")" = 'uploads 8, drops 0, builds 6, hints 1, orders 1' ] || return 1
    [ "$(grep -c ': left out: ' "$work/left")" -eq 4 ] || return 1
    [ "$(grep -c '^mail [0-9]*$' "$work/week/bag")" -eq 16 ]
}

files_are_installed() {
    make -s install PROGRAM="${program:-/bin/true}" PLAN="$plan" SYNC="$sync" PREFIX=/usr DESTDIR="$work/root" \
        || return 1
    for file in bin/office bin/office-plan bin/office-sync share/man/man1/office.1 lib/systemd/system/office.service \
        lib/systemd/system/office-pages.timer share/bash-completion/completions/office-plan \
        share/office/office_tools/pages/templates/front.html share/bash-completion/completions/office \
        share/zsh/vendor-completions/_office share/doc/office/RULES.md share/doc/office/README.md \
        share/doc/office/CHANGELOG.md; do
        [ -f "$work/root/usr/$file" ] || { echo "$file is missing" && return 1; }
    done
    for command in office-* ../tools/bin/office-*; do
        name=${command##*/}
        for file in "bin/$name" "share/man/man1/$name.1" "share/bash-completion/completions/$name" \
            "share/zsh/vendor-completions/_$name"; do
            [ -f "$work/root/usr/$file" ] || { echo "$file is missing" && return 1; }
        done
    done
    [ "$libraries" = no ] || "$work/root/usr/bin/office-from-packages" --help > "$work/help" || return 1
    make -s uninstall PREFIX=/usr DESTDIR="$work/root" || return 1
    [ -z "$(find "$work/root" -type f)" ]
}

# The documents that are installed cite no path of the repository, but for the part of README.md that is about it.
documents_cite_what_is_installed() {
    make -s install PROGRAM=/bin/true PLAN=/bin/true SYNC=/bin/true PREFIX=/usr DESTDIR="$work/cited" || return 1
    for file in "$work"/cited/usr/share/doc/office/*.md; do
        sed '/^## In the repository/,$d' "$file" | grep -nE '(`|^    |\()(share|docs|bench|crates|tests|tools)/' |
            sed "s|^|${file##*/}:|"
    done > "$work/paths"
    [ ! -s "$work/paths" ] || { cat "$work/paths" && return 1; }
}

program_is_missed() {
    ends 2 make -s install PROGRAM="$work/none" DESTDIR="$work/root" > "$work/missed" 2>&1 || return 1
    grep -q "build it first, or name another by PROGRAM=FILE" "$work/missed" || return 1
    ends 2 make -s install PROGRAM=/bin/true PLAN="$work/none" DESTDIR="$work/root" > "$work/missed" 2>&1 || return 1
    grep -q "build it first, or name another by PLAN=FILE" "$work/missed"
}

# With another program than the built one, where that isn't there; the version is made up for this check.
package_is_made() {
    OFFICE_PLAN=$plan OFFICE_SYNC=$sync ./debian/build 0.1.0-1 'Share Check <check@example.org>' \
        "${program:-/bin/true}" "$work" > "$work/package"
}

package_is_clean() {
    if [ "$(id -u)" -eq 0 ]; then
        set -- --allow-root
    else
        set --
    fi
    lintian "$@" --fail-on error,warning "$(cat "$work/package")"
}

options_are_told() {
    for command in compare replay serve waiting report runs why try propose hints order lint mail export check; do
        "$program" "$command" --help | sed -n 's/^  *\(-h, \)\{0,1\}--\([a-z]*\).*/\2/p' > "$work/options"
        grep -qx help "$work/options" || { echo "$command --help tells no option" && return 1; }
        while read -r option; do
            grep -q -e "Fl -$option" man/office.1 || { echo "man/office.1: --$option" && return 1; }
            for file in completion/office.bash completion/_office; do
                grep -q -e "--$option" "$file" || { echo "$file: --$option" && return 1; }
            done
        done < "$work/options"
    done
}

# The program's version is the newest one that the list of changes names.
version_is_told() {
    newest=$(sed -n 's/^## \([0-9][0-9.]*\).*/\1/p' ../CHANGELOG.md | head -n 1)
    "$program" --version > "$work/version" || return 1
    [ "$(head -n 1 "$work/version")" = "office $newest" ] || { cat "$work/version" && return 1; }
}

example_is_true() {
    "$program" replay --conf ../examples/setup.conf < ../examples/first.bag > "$work/first" || return 1
    while read -r line; do
        grep -qxF -e "$line" man/office.1 || { echo "man/office.1 lacks: $line" && return 1; }
    done < "$work/first"
}

store_is_exported() {
    "$program" replay --conf ../examples/setup.conf --db "$work/store" < ../examples/archive.bag > "$work/replayed" ||
        return 1
    ./office-export "$work/store" > "$work/bag" || return 1
    "$program" replay --conf ../examples/setup.conf < "$work/bag" > "$work/again" || return 1
    [ "$(wc -c < "$work/bag")" -eq "$(wc -c < ../examples/archive.bag)" ] || return 1
    sed -n '/^ready /,$p' "$work/replayed" > "$work/due"
    sed -n '/^ready /,$p' "$work/again" | cmp - "$work/due"
}

store_is_whole() {
    "$program" check --conf ../examples/setup.conf --db "$work/store" > "$work/checked" || return 1
    [ "$(cat "$work/checked")" = 'whole 2 runs' ] || { cat "$work/checked" && return 1; }
    ./office-check-store ../examples/setup.conf "$work/store"
}

store_differs() {
    sqlite3 "$work/store" "UPDATE run SET updates = updates || 'accept more 1' || char(10) WHERE number = 1" || return 1
    ends 1 "$program" check --conf ../examples/setup.conf --db "$work/store" > "$work/checked" || return 1
    [ "$(cat "$work/checked")" = 'run 1 update' ] || { cat "$work/checked" && return 1; }
    ends 1 ./office-check-store ../examples/setup.conf "$work/store"
}

for page in man/*.1; do
    try_by mandoc "$page: mandoc's lint" page_is_clean "$page"
done
try "man: the pages that others name are there" links_are_there
try_by shellcheck "all shell scripts of the repository: shellcheck" scripts_are_clean
for file in completion/*.bash; do
    try_by bash "$file: its syntax" bash -n "$file"
done
for file in completion/_*; do
    try_by zsh "$file: its syntax" zsh -n "$file"
done
for unit in systemd/*.service; do
    try_by systemd-analyze "$unit: exposure of at most 2.0" \
        systemd-analyze security --offline=true --threshold=20 --no-pager "$unit"
done
try_by systemd-analyze "systemd/: systemd knows each line" units_are_known
try_by mypy "tools: mypy" types_are_right
try_by flake8 "tools: flake8" flake8 --config ../tools/setup.cfg ../tools ../tools/bin/office-*
try_tool "tools: their tests" tools_are_tested
try_tool "tools: README.md names them, and manual pages tell the options of their help" tool_options_are_told
if [ -f /usr/share/bash-completion/bash_completion ]; then
    try_tool "tools: bash completes their options" tool_options_are_completed
else
    echo "skipped: tools: bash completes their options: bash-completion isn't installed"
fi
make_reports
try_tool "office-pages: pages and JSON of a run" pages_are_made
if perl -MYAML::Syck -e 1 2> /dev/null; then
    try_by grep-excuses "office-pages: grep-excuses reads the JSON" excuses_are_grepped
else
    echo "skipped: office-pages: grep-excuses reads the JSON: libyaml-syck-perl isn't installed"
fi
try_tool "office-pages: reports of two runs are refused" \
    ends 1 ../tools/bin/office-pages --excuses "$work/update" --update "$work/excuses" "$work"
try_tool "office-pages: no words" ends 2 ../tools/bin/office-pages
try_tool "office-pages: no folder" ends 1 ../tools/bin/office-pages "$work/none"
try_tool "office-from-packages: no words" ends 2 ../tools/bin/office-from-packages
try_tool "office-from-packages: no file" \
    ends 1 ../tools/bin/office-from-packages --uploaded 2025-03-01 --run 2025-03-06 "$work/week" "$work/none"
try "office-export: no words" ends 2 ./office-export
try "office-export: no file" ends 1 ./office-export "$work/none"
try "office-check-store: no words" ends 2 ./office-check-store
try "office-check-store: no file" ends 3 ./office-check-store ../examples/setup.conf "$work/none"
try_by make "Makefile: install and uninstall" files_are_installed
try_by make "Makefile: no program" program_is_missed
try_by make "documents: they cite what is installed" documents_cite_what_is_installed
try_by dpkg-deb "debian/build: a package" package_is_made
try_by lintian "debian/build: lintian" package_is_clean
if [ -n "$program" ]; then
    OFFICE=$program
    export OFFICE
    try_tool "office-from-packages: the examples' indexes" indexes_are_read
    try "manual page and completions: the options of the program's help" options_are_told
    try "the program's version, and that of CHANGELOG.md" version_is_told
    try "manual page: the replay of its example" example_is_true
    try_by sqlite3 "office-export: a store's mail as a bag" store_is_exported
    try_by sqlite3 "office check, office-check-store: a store as it was left" store_is_whole
    try_by sqlite3 "office check, office-check-store: a report that was edited" store_differs
else
    echo "skipped: what needs the built program: none is named"
fi
echo "$passed passed, $failed failed"
[ "$failed" -eq 0 ]
