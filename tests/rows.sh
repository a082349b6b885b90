# shellcheck shell=sh
# What the tests in sh and bash share: a folder of their own, in which they run, the demo, the counts of what passes and
# what fails, the last line, and how they make commands. The first row that fails ends a test that sets `stop`.

top=$(CDPATH='' cd -- "$(dirname -- "$0")/.." && pwd) || exit 1
work=$(mktemp -d) || exit 1
trap 'chmod -R u+rwx "$work"; rm -rf "$work"' EXIT
cd "$work" || exit 1
passed=0
failed=0
stop=
sources=$top/crates/acpidis_program
demo=$sources/data/demo

# end: prints the last line, and ends the test
end() {
    echo "$passed passed, $failed failed"
    [ "$failed" = 0 ]
    exit
}

pass() { passed=$((passed + 1)); }

# fail TEXT..: the last row failed
fail() {
    failed=$((failed + 1))
    echo "FAILED $*"
    if [ "$stop" ]; then end; fi
}

# is NAME GOT WANTED
is() {
    if [ "$2" = "$3" ]; then pass; else fail "$(printf '%s: got\n%s\nnot\n%s' "$1" "$2" "$3")"; fi
}

# script FILE: makes a command of the lines on standard input, and its folder
script() {
    case $1 in */*) mkdir -p "${1%/*}" ;; esac
    cat >"$1"
    chmod +x "$1"
}
