#!/bin/sh
# The command line, the reading of folders, and what the program writes where: its status, its lines on standard error and its
# text. It runs ./acpidis, which builds the program first. Some rows are skipped where the system can't make the folder.

. "$(dirname -- "$0")/rows.sh"
chmod 755 "$work"
"$top/acpidis" --program >/dev/null 2>&1
cp "$top/out/acpidis" program || exit 1

# row NAME STATUS LINES WORD..: the command has this status, and prints these lines on standard error, or nothing. Where it is
# refused nothing goes to standard output.
row() {
    name=$1 status=$2 lines=$3
    shift 3
    error=$("$@" 2>&1 >output)
    is "$name" "$? $error" "$status $lines"
    case $status in 0 | 3) ;; *) is "$name: standard output" "$(wc -c <output)" 0 ;; esac
}

# prints: what the last row wrote to standard output is what stands on standard input
prints() {
    if cmp -s - output; then pass; else fail "$name: another text"; sed 's/^/  /' output; fi
}

# shows NAME WORD..: with these words the program lists the demo, and says nothing
shows() {
    name=$1
    shift
    row "$name" 0 '' ./program "$@"
    prints <"$sources/stdout"
}

# lists NAME STATUS LINES WORD..: the same of the program with these words, and its text is what the independent reading says
lists() {
    name=$1 status=$2 lines=$3
    shift 3
    row "$name" "$status" "$lines" ./program "$@"
    python3 "$top/tests/oracle/running.py" "$@" 2>/dev/null | prints
}

# refused NAME LINE WORD..: with these words the program has the status 1, and says this
refused() {
    name=$1 line=$2
    shift 2
    row "$name" 1 "acpidis: $line" ./program "$@"
}

# fresh: makes the folder `folder` anew, with the table of the demo
fresh() {
    rm -rf folder
    cp -r "$demo" folder
}

# tells NAME TEXT..: the words of NAME print a line with each text to standard output, and nothing to standard error
tells() {
    name=$1
    shift
    row "$name" 0 '' ./program "$name"
    for text do
        if grep -q -- "$text" output; then pass; else fail "$name: no line with $text"; fi
    done
}

# cut_off NAME BYTES: status 4 in the file status, and on standard error the one line that a write failed after so many bytes
cut_off() { is "$1" "$(cat status) $(sed "s/^acpidis: write failed after $2 bytes\$/that/" error)" '4 that'; }

# table FILE SIGNATURE AML: writes a table with this AML, which is given in hexadecimal digits, and makes its folder
table() {
    mkdir -p "${1%/*}"
    PYTHONPATH=$top/tests:$top/tests/oracle python3 -B -c 'import sys
from made_aml import table
open(sys.argv[1], "wb").write(table(sys.argv[2].encode(), bytes.fromhex(sys.argv[3])))' "$@"
}

fresh

# a folder with a body that calls what nothing declares, among others; the last table has a wrong checksum in `summed`
table raw/dsdt.dat DSDT '140E4141414100A442424242010A0514084343434300A460'
table raw/ssdt1.dat SSDT '140B4444444400A442424242'
cp -r raw summed
printf '\001' | dd of=summed/ssdt1.dat bs=1 seek=9 conv=notrunc 2>/dev/null
raw_errors='acpidis: body \AAAA: UnknownName at 1
acpidis: body \DDDD: UnknownName at 1'
python3 "$top/tests/oracle/running.py" raw >raw.text 2>/dev/null

# the command line
for word in --help -h; do tells $word '--workers' '--any-sum' '--any-run' '--unknown-zero' '--check' 'FOLDER'; done
tells --version '^acpidis [0-9]'
# these are refused with status 2, and standard error has this text
# shellcheck disable=SC2086
while IFS='|' read -r name text words; do
    ./program $words >output 2>error
    is "$name" "$? $(wc -c <output) $(grep -cF -- "$text" error | sed 's/[1-9]/some/')" '2 0 some'
done <<T
no word|FOLDER|
options without a folder|FOLDER|--check
two folders|folder|folder folder
an option that there is not|--nothing|--nothing folder
a word that is no text||$(printf 'a\377')
no worker|--workers|--workers 0 folder
too many workers|--workers|--workers 65 folder
more workers than a number holds|--workers|--workers 4294967297 folder
workers that are no number|--workers|--workers x folder
workers without a number|--workers|folder --workers
a check with a value|--check|--check=yes folder
T

# options
shows 'one table' folder
shows 'all options' --workers 64 --any-sum --any-run --unknown-zero folder
shows 'options behind the folder' folder --workers=2 --any-sum
lists 'a check' 0 '' --check folder
lists 'bodies that are given as their bytes' 3 "$raw_errors" raw
lists 'a check with such bodies' 3 "$raw_errors" --check raw
lists 'unknown names without arguments' 0 '' --unknown-zero raw
refused 'a wrong checksum' 'table "ssdt1.dat": BadSum' summed
refused 'a check of a wrong checksum' 'table "ssdt1.dat": BadSum' --check summed
lists 'any checksum' 3 "$raw_errors" --any-sum summed

# code outside methods
table code/dsdt.dat DSDT A008010857494E5F00
refused 'code outside methods' 'table "dsdt.dat": ModuleCode at 0' --any-sum code
lists 'a check of code outside methods' 0 '' --any-sum --any-run --check code
lists 'code that may run' 0 '' --any-run --any-sum --workers 1 code

# a file of argument counts: read, with a line of another form, not there, of as many bytes as may be, of one more
printf '\\AAAA.BBBB 2\n\\BBBB 0\n' >counts
lists 'argument counts' 0 '' --externals counts raw
printf '\\BBBB 2\n\\BBBB\n' >counts
refused 'argument counts in another form' 'externals line 2: BadLine' --externals counts folder
refused 'no file of argument counts' 'cannot read "nowhere"' --externals nowhere folder
refused 'a folder as a file of argument counts' 'cannot read "folder"' --externals folder folder
: >counts
shows 'no argument counts' --externals counts folder
truncate -s 16777216 counts
refused 'argument counts of as many bytes as may be' 'externals line 1: BadLine' --externals counts folder
truncate -s 16777217 counts
refused 'argument counts of too many bytes' 'cannot read "counts"' --externals counts folder

# the number of workers changes nothing: of 300 bodies two in three can't be read
table crowd/dsdt.dat DSDT "$(python3 -c 'print("".join(
    "140B" + (b"M%03d" % number).hex() + ("00A442424242" if number % 3 else "00A44D303030") for number in range(300)))')"
./program crowd >crowd.text 2>crowd.errors
[ "$(grep -c 'Raw {' crowd.text) $(grep -c UnknownName crowd.errors)" = '200 200' ] || fail 'the bodies of a crowd'
for workers in 1 2 3 64; do
    row "$workers workers" 3 "$(cat crowd.errors)" ./program --workers "$workers" crowd
    prints <crowd.text
done

# standard output that can't be written: more lines than a pipe holds, of which one is read
table long/dsdt.dat DSDT "$(python3 -c 'print("".join("08" + (b"N%03X" % number).hex() + "00" for number in range(4096)))')"
row 'a long listing' 0 '' ./program long
{ ./program long 2>error; echo $? >status; } | head -n 1 >first
cut_off 'a pipe that is closed' '[0-9]*'
head -n 1 output | cmp -s - first || fail 'a pipe that is closed: another first line'
if [ -w /dev/full ]; then
    # shellcheck disable=SC2086
    for words in folder long '--check folder' raw; do
        ./program $words >/dev/full 2>error
        echo $? >status
        cut_off "a full standard output, $words" 0
    done
    row 'a version and a full standard output' 4 'acpidis: write failed' sh -c './program --version >/dev/full'
    row 'a refusal and a full standard output' 1 'acpidis: table "ssdt1.dat": BadSum' sh -c './program summed >/dev/full'
fi

# standard error that can't be written: full, or closed
mkdir empty
for place in /dev/full '&-'; do
    row "a refusal and standard error at $place" 1 '' sh -c "./program empty 2>$place"
    row "raw bodies and standard error at $place" 3 '' sh -c "./program raw 2>$place"
    prints <raw.text
    row "a command line and standard error at $place" 2 '' sh -c "./program 2>$place"
done

# what is no folder
refused 'no folder' 'cannot read folder' nowhere
refused 'an empty word' 'cannot read folder' ''
: >file
refused 'a file' 'cannot read folder' file
refused 'an empty folder' 'NoDsdt' empty
row 'a folder with a slash' 0 '' ./program folder/
ln -s folder link
row 'a link to a folder' 0 '' ./program link

# where standard error is a terminal a refusal has a second line: the way on
# on_terminal WORD..: the program with these words, for which standard error is a terminal
on_terminal() {
    python3 -c 'import pty, sys; sys.exit(pty.spawn(sys.argv[1:]) >> 8)' \
        sh -c 'stty -onlcr; exec ./program "$@" >output' - "$@" >&2 </dev/null
}
try_any_run='try --any-run, which takes what a run would declare; acpidis-refused FOLDER, with your options, shows what stands there'
ask_refused='acpidis-refused FOLDER, with your options, shows what stands there, and ways on'
ask_in_any_run='acpidis-refused --any-run FOLDER, with your options, shows what stands there, and ways on'

mkdir named
table twice/dsdt.dat DSDT 084141414100084141414100
table scope/dsdt.dat DSDT 100541414141
table alias/dsdt.dat DSDT 064242424241414141
table return/dsdt.dat DSDT A400
: >'named/: Duplicate \'
# shellcheck disable=SC2086
while IFS='|' read -r name line way words; do
    row "$name, to a terminal" 1 "acpidis: $line
acpidis: $way" on_terminal $words
done <<T
code outside methods|table "dsdt.dat": ModuleCode at 0|$try_any_run|--any-sum code
a path declared twice|table "dsdt.dat": Duplicate \AAAA|$try_any_run|twice
a Scope that is not there|table "dsdt.dat": ScopeMissing \AAAA|$try_any_run|scope
an Alias of nothing|table "dsdt.dat": AliasMissing \BBBB|$ask_refused|alias
a Return in any run|table "dsdt.dat": ModuleCode at 0|$ask_in_any_run|--any-run return
a wrong checksum|table "ssdt1.dat": BadSum|$ask_refused|summed
a file that is named as a refusal|table ": Duplicate \x5C": Short|$ask_refused|named
no tables|NoDsdt|$ask_refused|empty
no folder|cannot read folder|"nowhere" isn't there|nowhere
a file|cannot read folder|"file" is a file: put it into a folder, and name that; acpidis-unpack takes acpidump's text|file
T
row 'raw bodies, to a terminal' 3 "$raw_errors" on_terminal raw
row 'nothing to say, to a terminal' 0 '' on_terminal folder

# what is no regular file is passed over
mkdir folder/sub folder/tables.map
cp folder/dsdt.dat folder/sub/dsdt.dat
ln -s dsdt.dat folder/alike.dat
ln -s nowhere folder/broken.dat
ln -s sub folder/subs
mkfifo folder/pipe
python3 -c 'import socket; socket.socket(socket.AF_UNIX).bind("folder/socket")'
shows 'folders, links, a pipe, a socket' folder
rmdir folder/tables.map
printf 'no map\n' >map
ln -s ../map folder/tables.map
shows 'a map that is a link' folder

# a folder as Linux has it under /sys/firmware/acpi/tables: names without a dot, and the folders data and dynamic
mkdir -p system/data
cp "$demo/dsdt.dat" system/DSDT
table system/SSDT10 SSDT 084242424200
table system/SSDT9 SSDT 084141414100
table system/MCFG MCFG 00
table system/dynamic/SSDT11 SSDT 084343434300
printf 'no table' >system/data/BERT
lists "the system's own folder" 0 '' system

# any other regular file is taken for a dump
printf 'not a table\n' >system/README
refused 'a short text' 'table "README": Short' system
printf 'some text that is as long as the header of a table\n' >system/README
refused 'a text longer than a header' 'table "README": Short' --any-sum system

# maps: each with the words of its refusal
while IFS='|' read -r name line text; do
    fresh
    cp folder/dsdt.dat folder/other.dat
    printf '%b' "$text" >folder/tables.map
    refused "$name" "$line" folder
done <<'T'
an address leads to no root|RootMissing|0000000000001000 dsdt.dat\n
no end of the last line|RootMissing|00000000abcDEF00 dsdt.dat
too few digits|tables.map line 1: BadLine|00000000001000 dsdt.dat\n
an empty line|tables.map line 2: BadLine|0000000000001000 dsdt.dat\n\n
another name|tables.map line 1: NoSuchFile|0000000000001000 ssdt.dat\n
the map itself|tables.map line 1: NoSuchFile|0000000000001000 tables.map\n
no name|tables.map line 1: NoSuchFile|0000000000001000 \n
a name that is no text|tables.map line 1: NoSuchFile|0000000000001000 \0377\n
a line twice|tables.map line 2: Again|0000000000001000 dsdt.dat\n0000000000001000 dsdt.dat\n
an address twice|tables.map line 2: Again|0000000000001000 dsdt.dat\n0000000000001000 other.dat\n
T
rm folder/other.dat
: >folder/tables.map
shows 'an empty map' folder
truncate -s 16777217 folder/tables.map
refused 'a map of too many bytes' 'cannot read "tables.map"' folder
truncate -s 16777216 folder/tables.map
refused 'a map of as many bytes as may be' 'tables.map line 1: BadLine' folder

# files
fresh
truncate -s 16777216 folder/dsdt.dat
shows 'a table of as many bytes as may be' folder
truncate -s 17000000 folder/dsdt.dat
refused 'a table of too many bytes' 'table "dsdt.dat": TooLarge' folder
rm folder/dsdt.dat
: >'folder/a"b\~.dat'
refused 'a name to be quoted' 'table "a\x22b\x5C~.dat": Short' folder
: >"folder/$(printf 'A\n\303\251\177')"
refused 'a name with other bytes, first in order' 'table "A\x0A\xC3\xA9\x7F": Short' folder

fresh
cp folder/dsdt.dat folder/second.dat
cp folder/dsdt.dat folder/Zeroth.dat
refused 'names in the order of their bytes' 'table "dsdt.dat": TwoDsdts' folder

# a file that can't be read, by a user who may not
if [ "$(id -u)" = 0 ] && command -v setpriv >/dev/null; then
    printf 'no map\n' >folder/tables.map
    # shellcheck disable=SC2086
    while IFS='|' read -r what files words; do
        chmod 000 $files
        row "$what may not be read" 1 "acpidis: cannot read $what" setpriv --reuid=65534 --clear-groups ./program $words
        chmod 755 $files
    done <<'T'
"dsdt.dat"|folder/dsdt.dat folder/second.dat|folder
"tables.map"|folder/tables.map|folder
folder|folder|folder
"counts"|counts|--externals counts empty
T
fi

# numbers of files
mkdir many
(cd many && seq 511 | xargs touch)
cp "$demo/dsdt.dat" many/0
printf 'no map\n' >many/tables.map
refused '512 files and a map' 'tables.map line 1: BadLine' many
rm many/tables.map
refused '512 files' 'table "1": Short' many
mkdir many/sub
refused '512 files and a folder' 'table "1": Short' many
: >many/512
refused '513 files' 'TooManyTables' many

# names that are no text, before the number of files
if mkdir many/"$(printf '\377')" 2>/dev/null; then
    refused '513 files and a folder whose name is no text' 'cannot read folder' many
    fresh
    ln -s nowhere "folder/$(printf 'a\300')"
    refused 'a link whose name is no text' 'cannot read folder' folder
fi

end
