#!/usr/bin/env bash
# Runs acpidis over many sets of tables, and writes one line a set. The page many.md says how to use it.
#
#   survey.sh [-j JOBS] [-s SECONDS] [-m MEGABYTES] SETS RESULTS [OPTION..]
#   survey.sh --left SETS RESULTS
#   survey.sh --one SETS [OPTION..] -- FOLDER..
#
# The first form runs each set below SETS that has no line in RESULTS yet, JOBS at a time (as many as there are
# processors, if left out), each for SECONDS at most (600), and with no more memory than MEGABYTES, where that is given. The
# second prints the folders of these sets, each ended by a NUL. The third prints the lines of the given ones. Each OPTION is one
# of acpidis. ACPIDIS names another program, SURVEY_SECONDS and SURVEY_MEGABYTES are the third form's SECONDS and MEGABYTES. It
# needs bash 5, awk, and of Linux find, flock, sort, timeout and xargs.
set -u
export LC_ALL=C CDPATH=

fail() {
    echo "acpidis-survey: $*" >&2
    exit 1
}

script=$(cd -- "$(dirname -- "$0")" && pwd -P)/${0##*/} || exit 1
top=${script%/*/*}

# Sets ACPIDIS to the program: the one it names, else that of this repository, which is built where it isn't, else the
# installed one, on PATH or beside this script.
find_program() {
    if [ -z "${ACPIDIS-}" ] && [ -f "$top/acpidis" ] && [ -x "$top/acpidis" ]; then
        ACPIDIS=$("$top/acpidis" --program) || exit
    fi
    ACPIDIS=$(PATH=$PATH:${script%/*}:$top/../bin && command -v -- "${ACPIDIS:-acpidis}") || fail 'no program acpidis: install it, or name it in ACPIDIS'
    export ACPIDIS
}

# show FOLDER: sets `shown` to its name in a line, each byte that isn't printable ASCII, and \, as \x and two digits
show() {
    local char code
    shown=${1//\\/'\x5C'}
    while [[ $shown =~ [^\ -~] ]]; do
        char=${BASH_REMATCH[0]}
        printf -v code %d "'$char"
        printf -v code '\\x%02X' $((code & 255))
        shown=${shown//"$char"/"$code"}
    done
}

# open_results SETS RESULTS: makes the file where it isn't there, and cuts off a last line that isn't whole. Each line has to
# be a result, and one at the end that isn't whole has to begin as one.
open_results() {
    [ -d "$1" ] || fail "no folder $1"
    [ ! -e "$2" ] || [ -f "$2" ] || [ "$2" = /dev/null ] || fail "$2 is no regular file"
    : >>"$2" || fail "cannot write $2"
    awk -F '\t' -v whole="$(wc -l <"$2")" '
        NR <= whole ? NF != 8 || $2 !~ /^[0-9]+$/ : NF > 8 || NF > 1 && $2 !~ /^[0-9]*$/ || !whole && NF < 2 { exit 1 }
        ' <"$2" || fail "$2 has lines that are no results: name another file"
    if [ -n "$(tail -c 1 -- "$2")" ]; then
        truncate -s "$(head -n "$(wc -l <"$2")" -- "$2" | wc -c)" -- "$2" || fail "cannot write $2"
    fi
}

# The folders below SETS that hold a file, are empty, or can't be read; files in SETS itself are none of a set, nor are the
# parts of a collection.
folders_of() {
    (cd -- "$1" && find . -mindepth 1 -name '.part.*' -prune -o \( -type d ! -readable -print0 -prune \) -o \( -type d -empty -print0 \) \
        -o \( ! -type d -path './*/*' -printf '%h\0' \)) | sort -zu
}

# left SETS RESULTS: the sets that have no line, each ended by a NUL
left() {
    local -A is_set=() has_line=()
    local name folder folders
    open_results "$1" "$2"
    while IFS=$'\t' read -r name _; do has_line["/$name"]=1; done <"$2"
    mapfile -d '' folders < <(folders_of "$1")
    for folder in "${folders[@]}"; do is_set["$folder"]=1; done
    for folder in "${folders[@]}"; do
        case ${folder##*/} in
        # Of a set these come along from /sys/firmware/acpi/tables.
        data | dynamic) [ -z "${is_set["${folder%/*}"]-}" ] || continue ;;
        esac
        show "${folder#./}"
        [ -n "${has_line["/$shown"]-}" ] || printf '%s\0' "${folder#./}"
    done
}

# The first fault, tables, methods and raw bodies of a run, from its lines, and the file of the first table, the DSDT
count_checks() {
    awk '
        /^Check "/ && !tables { dsdt = $0; sub(/^Check "/, "", dsdt); sub(/" Bytes .*/, "", dsdt) }
        /^Check "/ { tables++; methods += $(NF - 3); raw += $(NF - 1); next }
        fault == "" { sub(/^acpidis: /, ""); fault = $0 }
        END {
            if (fault == "") fault = "-"
            if (length(fault) > 2000) fault = substr(fault, 1, 2000) " .." # the path of a deep body is long
            if (!tables) tables = methods = raw = "-"
            print fault "\t" tables "\t" methods "\t" raw "\t" dsdt
        }'
}

# oem_of SET NAME: sets `oem` to OEM, table and revision in the header of the file of this name, as the listing has them
oem_of() {
    local name
    printf -v name %b "$2" # a backslash in it is always \x and two digits
    oem=$([ -z "$2" ] || od -An -v -tu1 -w18 -j 10 -N 18 -- "$1/$name" 2>/dev/null | awk 'NF == 18 {
        for (i = 1; i <= 14; i++) {
            form = $i < 32 || $i > 126 || $i == 34 || $i == 92 ? "\\x%02X" : "%c"
            texts[i > 6] = texts[i > 6] sprintf(form, $i + 0)
        }
        printf "\"%s\" \"%s\" %02X%02X%02X%02X", texts[0], texts[1], $18, $17, $16, $15
    }')
    oem=${oem:--}
}

# check WORD..: runs the program with these words, no longer and with no more memory than it may. It is a process of its own.
check() (
    [ -z "${SURVEY_MEGABYTES-}" ] || ulimit -v $((SURVEY_MEGABYTES * 1024)) || exit 126
    exec timeout --foreground -k 5 "${SURVEY_SECONDS:-600}" "$ACPIDIS" --check --workers 1 "$@" 2>&1 </dev/null
)

# hint WORD..: sets `said` to whether the program takes the set with these words, or that it was ended before it said so
hint() {
    check "$@" >/dev/null
    case $? in
    0 | 3) said=' (read with --any-run)' ;;
    1) said= ;;
    *) said=' (--any-run was cut off)' ;;
    esac
}

# one SET OPTION..: the line of the set in the folder `folder`
one() {
    local from=$EPOCHREALTIME set=$1 until counts status micros oem fault said=
    shift
    show "$folder"
    if [ "$shown" != "$folder" ] && [ -r "$set" ]; then
        exec 8<"$set" # a name that isn't UTF-8 can be no word of a command line
        set=/dev/fd/8
    fi
    counts=$(
        check "$@" "$set" | count_checks
        exit "${PIPESTATUS[0]}"
    )
    status=$? until=$EPOCHREALTIME
    case $status in 126 | 127) fail "cannot run $ACPIDIS" ;; esac
    fault=${counts%%$'\t'*} counts=${counts#*$'\t'}
    case $status$fault in
    *': Short' | *': TooLarge' | *': Bad'[SR]* | *': FadtShort' | *': MadtRecord at '* | *': TwoDsdts') ;; # of files alone
    '1table "'*) [[ " $* " == *' --any-run '* ]] || hint --any-run "$@" "$set" && fault+=$said ;;
    esac
    micros=$((${until/./} - ${from/./}))
    oem_of "$set" "${counts##*$'\t'}"
    printf '%s\t%s\t%s\t%s\t%d.%03d\t%s\n' "$shown" "$status" "$fault" "${counts%$'\t'*}" \
        $((micros / 1000000)) $((micros / 1000 % 1000)) "$oem"
}

# The lines of the folders behind `--`. Status 255 makes xargs stop.
ones() {
    trap 'case $? in 0) ;; *) exit 255 ;; esac' EXIT
    find_program
    local sets=$1 options=() folder
    shift
    case $sets in /*) ;; *) sets=./$sets ;; esac
    while [ $# -gt 0 ] && [ "$1" != -- ]; do
        options+=("$1")
        shift
    done
    shift || fail 'no folders: they stand behind --'
    for folder; do
        folder=${folder#./}
        one "$sets/$folder" "${options[@]}" || exit
    done
}

# check_counts OPTION..: tries the file of --externals once, by a folder that has no table
check_counts() {
    local room said
    room=$(mktemp -d) || exit
    said=$("$ACPIDIS" --check "$@" -- "$room" 2>&1 </dev/null)
    rmdir -- "$room"
    [ "$said" = 'acpidis: NoDsdt' ] && return
    printf '%s\n' "$said" >&2
    exit 2
}

survey() {
    find_program
    open_results "$1" "$2"
    exec 9>>"$2"
    flock -n 9 || fail "another survey is writing $2"
    local sets=$1 results=$2 folders batch
    shift 2
    "$ACPIDIS" --check --workers 1 "$@" --help >/dev/null || exit
    case " $*" in *' --externals'*) check_counts "$@" ;; esac
    mapfile -d '' folders < <(left "$sets" "$results")
    if [ ${#folders[@]} -gt 0 ]; then
        # One process writes the file, and each line comes to it whole.
        batch=$((${#folders[@]} / (jobs * 8) + 1))
        printf '%s\0' "${folders[@]}" |
            xargs -0 -n "$batch" -s 100000 -P "$jobs" "$BASH" "$script" --one "$sets" "$@" -- | cat >>"$results"
    elif [ ! -s "$results" ]; then
        fail "no folder with tables is below $sets"
    fi
    mapfile -d '' folders < <(left "$sets" "$results")
    cut -f 2 -- "$results" | sort -n | uniq -c | awk '{ print "acpidis-survey: status " $2 ": " $1 }' >&2
    [ ${#folders[@]} = 0 ] || fail "${#folders[@]} sets have no line: run it again"
}

for word; do
    [ ! -p "${word#--externals=}" ] || fail "${word#--externals=} is a pipe, which may never end"
done
jobs=$(nproc 2>/dev/null) || jobs=1
case ${1-} in
-h | --help)
    sed -n '2,/^set/s/^# \{0,1\}//p' -- "$script" | sed "s/^  survey\.sh/  ${0##*/}/"
    exit
    ;;
--left | --one)
    [ $# -ge 3 ] || fail "$1 needs more words"
    if [ "$1" = --left ]; then left "$2" "$3"; else ones "${@:2}"; fi
    exit
    ;;
esac
while getopts :j:s:m: option; do
    case $option in
    j) jobs=$OPTARG ;;
    s) export SURVEY_SECONDS=$OPTARG ;;
    m) export SURVEY_MEGABYTES=$OPTARG ;;
    :) fail "-$OPTARG takes a value" ;;
    *) fail "there is no option -$OPTARG here: those of acpidis stand behind RESULTS" ;;
    esac
done
shift $((OPTIND - 1))
# number OPTION WHAT VALUE FORM: refuses what is no number of this form, or nothing, or too large for a shell
number() {
    [[ $3 =~ ^$4$ && $3 == *[1-9]* ]] || fail "$1 takes a number of $2, not $3"
}
number -j jobs "$jobs" '[1-9][0-9]{0,8}'
number -s seconds "${SURVEY_SECONDS-600}" '[0-9]{0,9}(\.[0-9]{0,9})?'
number -m megabytes "${SURVEY_MEGABYTES:-1}" '[1-9][0-9]{0,8}'
[ $# -ge 2 ] || fail "usage: ${0##*/} [-j JOBS] [-s SECONDS] [-m MEGABYTES] SETS RESULTS [OPTION..]"
case " ${*:3} " in *' --help '* | *' -h '* | *' --version '* | *' -V '*) fail '--help and --version check no set' ;; esac
survey "$@"
