#!/bin/sh
# Brings the ACPI tables of many machines by ssh, several at a time.
#
#   collect.sh HOSTS SETS [JOBS]
#
# HOSTS is a file with a host a line. The tables of each come into the folder SETS/HOST, whole or not at all. JOBS machines
# are asked at a time, 16 if left out, each for COLLECT_SECONDS at most (60), and none may send more than COLLECT_MEGABYTES
# (64), nor more than 4,096 files, nor folders that are deep, nor anything packed. Of what it sends regular files and folders
# are kept. sudo must ask for no password there. SETS/log gets a line for each that was asked: host, status, seconds. What
# went wrong is said with the host in front, and then the status is 1. Start it again to ask those hosts again that have no
# folder yet.

# is_host HOST: whether it is a word that may be a folder's name beside the log, and no option of ssh
is_host() {
    case $1 in -* | .* | log | */* | *[!A-Za-z0-9._@:-]*) return 1 ;; esac
}

# one HOST: its tables
one() {
    : "${SETS:?is to name the folder of the sets}"
    if ! is_host "$1"; then
        printf '%s\n' "$1: no name of a host" | LC_ALL=C tr -dc ' -~\n' >&2
        exit 1
    fi
    part=$(mktemp -d -- "$SETS/.part.XXXXXX") || exit 1
    asked=
    trap 'if [ "$asked" ]; then kill "$asked"; fi; chmod -R u+rwX -- "$part"; rm -rf -- "$part"' EXIT
    trap 'exit 130' INT
    trap 'exit 143' TERM HUP
    start=$(date +%s)
    # What a host sends may be anything: no file gets larger, and no answer longer. This shell goes on where one would.
    trap : XFSZ
    ulimit -f $((${COLLECT_MEGABYTES:-64} * 2048)) || exit 1
    timeout -k 5 "${COLLECT_SECONDS:-60}" ssh -n -o BatchMode=yes -o ConnectTimeout=10 -- "$1" \
        sudo -n tar -C /sys/firmware/acpi/tables -cf - . 2>"$part/said" >"$part/tar" &
    asked=$!
    wait "$asked" 2>/dev/null # this shell would say that a signal ended it
    status=$? asked=
    if [ "$status" = 0 ]; then
        { unpack "$part" && mv -T -- "$part/set" "$SETS/$1"; } 2>"$part/told" || status=1
        head -n 1 -- "$part/told" >"$part/said" # the first line has the reason
    fi
    printf '%s\t%s\t%s\n' "$1" "$status" $(($(date +%s) - start)) >>"$SETS/log"
    case $status in
    0) return ;;
    124 | 137) said="no answer in ${COLLECT_SECONDS:-60} seconds" ;;
    153) said="more than ${COLLECT_MEGABYTES:-64} MB" ;;
    *) said=$(tail -c 500 -- "$part/said" | tail -n 1 | LC_ALL=C tr -dc ' -~') ;;
    esac
    printf '%s\n' "$1: ${said:-status $status}" >&2
    exit 1
}

# unpack FOLDER: the regular files and folders of FOLDER/tar into FOLDER/set, with plain rights. From standard input tar
# unpacks nothing that is packed. A sparse file may be longer than what was sent, and a long name stand for many folders.
unpack() {
    tar --numeric-owner -tvf - <"$1/tar" | awk -v most=$((${COLLECT_MEGABYTES:-64} * 1048576)) '
        { size += $3 }
        NR > 4096 { said = "more than 4096 files" }
        size > most { said = "files of more than " most / 1048576 " MB" }
        gsub("/", "/") > 16 { said = "folders that are too deep" }
        END { if (said) { print said >"/dev/stderr"; exit 1 } }' || return 1
    mkdir -- "$1/set" && timeout "${COLLECT_SECONDS:-60}" tar -C "$1/set" --no-same-owner --no-same-permissions -xf - <"$1/tar" &&
        chmod -R u=rwX,go=rX,a-s,a-t -- "$1/set" && find "$1/set" ! -type f ! -type d -delete &&
        find "$1/set" -type f -exec chmod 644 {} +
}

fail() {
    echo "$*" >&2
    exit 2
}

case ${COLLECT_MEGABYTES:-64} in
0* | *[!0-9]* | ???????*) fail "acpidis-collect: COLLECT_MEGABYTES is no number of megabytes: $COLLECT_MEGABYTES" ;;
esac
case ${1-} in
--one)
    one "$2"
    exit
    ;;
-h | --help)
    sed -n '2,/^$/s/^# \{0,1\}//p' "$0" | sed "s/^  collect\.sh/  ${0##*/}/"
    exit
    ;;
esac
if [ $# -lt 2 ] || [ $# -gt 3 ]; then fail "usage: ${0##*/} HOSTS SETS [JOBS]"; fi
if [ ! -r "$1" ] || [ -d "$1" ]; then fail "acpidis-collect: cannot read $1"; fi
case $1 in
/dev/* | /proc/*) ;;
*) [ ! -p "$1" ] || fail "acpidis-collect: $1 is a pipe, which may never end" ;;
esac
mkdir -p -- "$2" || exit 1
export SETS="$2"
# What is left of an hour ago was broken off.
(CDPATH='' cd -- "$SETS" && find . -maxdepth 1 -name '.part.*' -mmin +60 -exec chmod -R u+rwX {} + -exec rm -rf {} +)
end=$(printf '\r') # of a line on Windows
while read -r host || [ -n "$host" ]; do
    host=${host%"$end"}
    case $host in '' | '#'*) continue ;; esac
    if ! is_host "$host" || [ ! -d "$SETS/$host" ]; then printf '%s\0' "$host"; fi
done <"$1" | LC_ALL=C sort -zu | xargs -0 -r -n 1 -P "${3:-16}" "$0" --one || exit 1
