#!/usr/bin/env bash
# examples/survey.sh: odd names, refused sets, sets that end a run, and surveys that are broken off. It runs ./acpidis,
# which builds the program first. With the word --stop the first row that fails ends it. The last line is 'N passed, N failed'.

. "$(dirname -- "$0")/rows.sh"
"$top/acpidis" --program >/dev/null 2>&1
program=$top/out/acpidis
survey=$top/examples/survey.sh
stop=${1-}

# slow.sh is the program, which waits first; calls has a line for each run of it
script slow.sh <<S
#!/bin/sh
case " \$* " in *' --help '*) ;; *) echo "\$*" >>'$work/calls'; sleep "\${SLOW-0}" ;; esac
exec '$program' "\$@"
S

# sets of odd names, among folders that are none
# shellcheck disable=SC2016
names=("plain" "two words" $'tab\there' $'new\nline\n' 'back\slash' '-dash' '$(touch bad)' '*' ']' "quote'\"" 'é'
    $'not\xfftext' '%s' '@')
for name in "${names[@]}"; do
    mkdir -p "sets/rack 1/$name"
    cp "$demo/dsdt.dat" "sets/rack 1/$name"
done
mkdir -p "sets/rack 1/plain/dynamic" "sets/rack 1/plain/data" sets/data sets/empty sets/text
cp "$demo/dsdt.dat" "sets/rack 1/plain/dynamic"
cp "$demo/dsdt.dat" sets/data
echo 'no table' >sets/text/NOTES
echo 'beside the sets' >sets/NOTES
# shellcheck disable=SC2016
shown=(plain 'two words' 'tab\x09here' 'new\x0Aline\x0A' 'back\x5Cslash' -dash '$(touch bad)' '*' ']' "quote'\""
    '\xC3\xA9' 'not\xFFtext' %s @)
{
    printf '%s\t0\t-\t1\t1\t0\n' data "${shown[@]/#/rack 1/}"
    printf '%s\t1\t%s\t-\t-\t-\n' empty NoDsdt text 'table "NOTES": Short'
} | LC_ALL=C sort >wanted
lines() { LC_ALL=C sort "$1" | cut -f 1-6; }
"$survey" -j 3 sets results 2>report
is 'status of a survey' "$?" 0
is 'lines' "$(lines results)" "$(cat wanted)"
is 'seconds' "$(grep -cvP '\t[0-9]+\.[0-9]{3}\t[^\t]+$' results)" 0
is 'OEMs' "$(cut -f 8 results | LC_ALL=C sort | uniq -c | sed 's/^ *//')" $'15 "TEST  " "EXAMPLE " 00000001\n2 -'
is 'the report' "$(cat report)" $'acpidis-survey: status 0: 15\nacpidis-survey: status 1: 2'
is 'no name ran' "$(ls -d bad sets/bad 2>/dev/null)" ''

# a second survey runs nothing, one of a line less runs that, and a last line that isn't whole doesn't count
ACPIDIS=$work/slow.sh "$survey" sets results 2>/dev/null
is 'nothing is run again' "$(cat calls 2>/dev/null)" ''
grep -v '^text' results >fewer
printf 'text\t1\ttable "NOTES": Sho' >>fewer
ACPIDIS=$work/slow.sh "$survey" sets fewer 2>/dev/null
is 'a cut line' "$(cat calls)" '--check --workers 1 ./sets/text'
is 'a cut line is made anew' "$(lines fewer)" "$(cat wanted)"

# what is at fault in the command stops it, and leaves no line
"$survey" sets none --no-such-option >/dev/null 2>&1
is 'a wrong option' "$? $(cat none)" '2 '
"$survey" sets none --externals nosuch 2>said
is 'no file of counts' "$? $(cat none said)" '2 acpidis: cannot read "nosuch"'
ACPIDIS=/none/acpidis "$survey" sets none >/dev/null 2>&1
is 'no program' "$? $(cat none)" '1 '
mkdir nothing
mkfifo pipe
printf 'no\tresults\nat all' >text
cp "$demo/dsdt.dat" bytes
# shellcheck disable=SC2086
while IFS='|' read -r name text words; do
    is "$name" "$(timeout 9 "$survey" $words 2>&1; echo "$?"; cat none)" "$text"$'\n1'
done <<'T'
no sets|acpidis-survey: no folder nowhere|nowhere none
too few words|acpidis-survey: usage: survey.sh [-j JOBS] [-s SECONDS] [-m MEGABYTES] SETS RESULTS [OPTION..]|sets
results that are no file|acpidis-survey: /dev/full is no regular file|sets /dev/full
a file of others|acpidis-survey: text has lines that are no results: name another file|sets text
a file without lines|acpidis-survey: bytes has lines that are no results: name another file|sets bytes
an option of the program|acpidis-survey: there is no option -- here: those of acpidis stand behind RESULTS|--any-run sets none
--help|acpidis-survey: --help and --version check no set|sets none --any-sum --help
--version|acpidis-survey: --help and --version check no set|sets none --any-sum --version
an empty folder|acpidis-survey: no folder with tables is below nothing|nothing none
a set itself|acpidis-survey: no folder with tables is below sets/text|sets/text none
no number of seconds|acpidis-survey: -s takes a number of seconds, not x|-s x sets none
no time|acpidis-survey: -s takes a number of seconds, not 0.0|-s 0.0 sets none
no time at all|acpidis-survey: -s takes a number of seconds, not 00|-s 00 sets none
no number of megabytes|acpidis-survey: -m takes a number of megabytes, not 0|-m 0 sets none
too many megabytes|acpidis-survey: -m takes a number of megabytes, not 99999999999999999999|-m 99999999999999999999 sets none
counts from a pipe|acpidis-survey: pipe is a pipe, which may never end|sets none --externals pipe
T

# options are the program's
mkdir summed
cp -r "$demo" summed/one
printf '\001' | dd of=summed/one/dsdt.dat bs=1 seek=9 conv=notrunc 2>/dev/null
"$survey" summed strict 2>/dev/null
"$survey" summed lax --any-sum 2>/dev/null
is 'an option' "$(cut -f 1-3 strict lax)" $'one\t1\ttable "dsdt.dat": BadSum\none\t0\t-'

# a set that is refused, and whether --any-run reads it: an If around a Name, and a Return
mkdir -p run/if run/return run/short
printf 'DSDT\66\0\0\0%028d\10CCCC\1\240\13CCCC\10WIN_\0' 0 >run/if/dsdt.dat
printf 'DSDT\46\0\0\0%028d\244\0' 0 >run/return/dsdt.dat
printf 'no table' >run/short/dsdt.dat
others=$'return\t1\ttable "dsdt.dat": ModuleCode at 0\t-\t-\t-\nshort\t1\ttable "dsdt.dat": Short\t-\t-\t-'
"$survey" run refused --any-sum 2>/dev/null
is 'what --any-run reads' "$(lines refused)" \
    $'if\t1\ttable "dsdt.dat": ModuleCode at 6 (read with --any-run)\t-\t-\t-\n'"$others"
: >calls
ACPIDIS=$work/slow.sh "$survey" run taken --any-sum --any-run 2>/dev/null
is 'the option given' "$(lines taken)" $'if\t0\t-\t1\t0\t0\n'"$others"
is 'no set is run twice' "$(wc -l <calls)" 3

# the OEM of the DSDT, whatever its file is called, with bytes that aren't printable
mkdir -p named/set
cp "$demo/dsdt.dat" named/set/$'a "\\b\n'
printf '"\\\t~\377 \000AaZz|}\200\001\002\003\377' | dd of=named/set/$'a "\\b\n' bs=1 seek=10 conv=notrunc 2>/dev/null
"$survey" named oems --any-sum 2>/dev/null
is 'bytes of an OEM' "$(cut -f 2,4,8 oems)" $'0\t1\t"\\x22\\x5C\\x09~\\xFF " "\\x00AaZz|}\\x80" FF030201'

# a run that ends by a signal, or takes too long, has a line too
mkdir -p some
for number in 1 2 3; do cp -r "$demo" some/$number; done
printf '#!/bin/sh\ncase $* in *--help*) ;; *some/2) kill -9 $$ ;; esac\nexec %s "$@"\n' "$program" | script dies.sh
ACPIDIS=$work/dies.sh "$survey" some died 2>/dev/null
is 'a signal' "$(lines died)" $'1\t0\t-\t1\t1\t0\n2\t137\t-\t-\t-\t-\n3\t0\t-\t1\t1\t0'
printf '#!/bin/sh\ncase $* in *--help*) ;; *) exec sleep 9 ;; esac\n' | script late.sh
ACPIDIS=$work/late.sh "$survey" -s 0.1 -j 3 some late 2>/dev/null
is 'too long' "$(lines late)" $'1\t124\t-\t-\t-\t-\n2\t124\t-\t-\t-\t-\n3\t124\t-\t-\t-\t-'

# bounded memory, and a hint that takes too long
script bound.sh <<'S'
#!/bin/sh
case $* in *--help*) exit ;; *--any-run*) exec sleep 20 ;; esac
echo "acpidis: table \"dsdt.dat\": ModuleCode at $(ulimit -v)" >&2
exit 1
S
ACPIDIS=$work/bound.sh "$survey" -s 0.5 -m 100 -j 3 some bound 2>/dev/null
is 'bounds' "$(cut -f 1-3 bound | sort | head -n 1)" $'1\t1\ttable "dsdt.dat": ModuleCode at 102400 (--any-run was cut off)'

# killed in the middle, again and again, with all that it started: each set gets just one line in the end
mkdir many
for number in {001..150}; do cp -r "$demo" many/"$number"; done
kills=0
: >killed
for enough in 20 50 80; do
    SLOW=0.05 ACPIDIS=$work/slow.sh setsid "$survey" -j 3 many killed 2>/dev/null &
    while [ "$(wc -l <killed)" -lt "$enough" ] && kill -0 "$!" 2>/dev/null; do sleep 0.05; done
    kill -9 -- "-$!" 2>/dev/null && kills=$((kills + 1))
    wait "$!" 2>/dev/null
    # what it started may hold the lock for a moment longer
    flock killed true
done
before=$(wc -l <killed)
SLOW=0.02 ACPIDIS=$work/slow.sh "$survey" -j 3 many killed 2>/dev/null
is 'status after kills' "$? $kills" '0 3'
is 'each set once' "$(lines killed | grep -c .) $(cut -f 1 killed | sort -u | grep -c .)" '150 150'
is 'killed in the middle' "$([ "$before" -gt 0 ] && [ "$before" -lt 150 ] && echo yes)" yes

# two surveys of one file don't run beside each other
: >both
is 'two at once' "$(flock both "$survey" some both 2>&1)" 'acpidis-survey: another survey is writing both'
is 'the second writes nothing' "$(cat both)" ''

# the parts of the script, as GNU parallel and xargs use them
is 'the sets that are left' "$("$survey" --left some /dev/null | tr '\0' '|')" '1|2|3|'
"$survey" --left some /dev/null | xargs -0 "$survey" --one some --any-sum -- >parts
is 'the lines of the given' "$(lines parts)" $'1\t0\t-\t1\t1\t0\n2\t0\t-\t1\t1\t0\n3\t0\t-\t1\t1\t0'

# a folder that may not be read, by a user who may not
nobody=(setpriv --reuid=65534 --clear-groups)
if [ "$(id -u)" = 0 ] && command -v setpriv >/dev/null && "${nobody[@]}" test -x "$survey" -a -x "$program"; then
    mkdir -p closed/shut
    cp -r "$demo" closed/open
    chmod 700 closed/shut
    chmod 777 .
    ACPIDIS=$program "${nobody[@]}" "$survey" closed shut 2>/dev/null
    is 'a folder that may not be read' "$(lines shut)" $'open\t0\t-\t1\t1\t0\nshut\t1\tcannot read folder\t-\t-\t-'
fi

is 'help' "$("$survey" --help | head -n 1 | cut -c 1-12)" 'Runs acpidis'

# collect.sh, with another ssh: a host that sends tables, one that sends half of them, one that fails, one that is silent;
# others send a folder of `sent`
collect=$top/examples/collect.sh
script commands/ssh <<S
#!/bin/sh
while [ "\$1" != -- ]; do shift; done
echo "\$2" >>'$work/asked'
case \$2 in
good*) exec tar -C '$demo' -cf - . ;;
half) tar -C '$demo' -cf - . | head -c 1040 ;;
late) sleep 9 ;;
large) head -c 3000000 /dev/zero ;;
flood) head -c 9000000 /dev/zero >&2 ;;
deaf) trap '' TERM; sleep 9; sleep 9 ;;
loud) head -c 100000 /dev/zero | tr '\\0' x >&2; printf '\\nno \\033[31mway\\007\\n' >&2; exit 1 ;;
greets) echo Welcome; exec tar -C '$demo' -cf - . ;;
packed) exec tar -C '$work/sent/packed' -czf - . ;;
odd1 | many | sparse | deep) exec tar -S -C "$work/sent/\$2" -cf - . ;;
*) echo first >&2; echo "no way to \$2" >&2; exit 255 ;;
esac
S
mkdir -p sent/odd1/shut sent/packed sent/many sent/sparse "sent/deep/$(printf 'd/%.0s' {1..17})"
cp "$demo/dsdt.dat" sent/odd1
cp "$demo/dsdt.dat" sent/odd1/shut
ln -s /etc/passwd sent/odd1/link
mkfifo sent/odd1/fifo
chmod 6755 sent/odd1/dsdt.dat
chmod 2000 sent/odd1/shut
head -c 900000 /dev/zero | tee sent/packed/one >sent/packed/two
touch sent/many/{1..4200}
truncate -s 40M sent/sparse/one sent/sparse/two
# shellcheck disable=SC2016
printf '%s\n' good1 dead '# a line' '' late half '-oProxyCommand=touch bad' '../out' 'a b' '$(touch bad)' >hosts
printf '%s' $'dead\n\r\ngreets\r\ngood2' >>hosts
is 'hosts from a pipe' "$(timeout 9 "$collect" pipe collected 2>&1; echo "$?")" \
    $'acpidis-collect: pipe is a pipe, which may never end\n2'
is 'no hosts' "$("$collect" nowhere collected 2>&1; echo "$?"; ls -d collected 2>/dev/null)" $'acpidis-collect: cannot read nowhere\n2'
# collected VARIABLE=..: brings the tables of the hosts
collected() { env PATH="$work/commands:$PATH" "$@" "$collect" hosts collected 2>errors; }
collected COLLECT_SECONDS=1
is 'the status of a collection' "$?" 1
is 'what came' "$(cd collected && find . -type f ! -name log | LC_ALL=C sort | tr '\n' ' ')" './good1/dsdt.dat ./good2/dsdt.dat '
# shellcheck disable=SC2016 # a host's name, not a command
is 'hosts in the errors' "$(cut -d : -f 1 errors | LC_ALL=C sort | tr '\n' '|')" '$(touch bad)|-oProxyCommand=touch bad|../out|a b|dead|greets|half|late|'
is 'the last line of an error' "$(grep dead errors)" 'dead: no way to dead'
is 'the first line of what tar said' "$(grep greets errors)" 'greets: tar: This does not look like a tar archive'
is 'no answer' "$(grep late errors)" 'late: no answer in 1 seconds'
is 'the log' "$(cut -f 1-2 collected/log | LC_ALL=C sort | tr '\t\n' ' |')" 'dead 255|good1 0|good2 0|greets 1|half 1|late 124|'
# shellcheck disable=SC2012 # the names are known
is 'no part is left' "$(ls -A collected | tr '\n' ' ')" 'good1 good2 log '
: >asked
collected COLLECT_SECONDS=1
is 'only those are asked again that have none' "$(sort asked | tr '\n' ' ')" 'dead greets half late '
is 'nothing ran' "$(find . -name 'bad*')" ''

# what a host sends may be anything: too much, control bytes, links, rights
printf '%s\n' large loud odd1 >hosts
collected COLLECT_MEGABYTES=1
is 'too much, and control bytes' "$(LC_ALL=C sort errors)" $'large: more than 1 MB\nloud: no [31mway'
printf '%s\n' packed many sparse deep >hosts
collected
is 'what is packed, and too many files' "$(cut -d : -f 1 errors | LC_ALL=C sort | tr '\n' ' ')" 'deep many packed sparse '
is 'why' "$(grep -v packed errors | LC_ALL=C sort)" \
    $'deep: folders that are too deep\nmany: more than 4096 files\nsparse: files of more than 64 MB'
is 'regular files alone' "$(cd collected/odd1 && find . -printf '%p %m|' | tr '|' '\n' | LC_ALL=C sort | tr '\n' ' ')" \
    '. 755 ./dsdt.dat 644 ./shut 755 ./shut/dsdt.dat 644 '
# shellcheck disable=SC2012 # the names are known
is 'no part of these is left' "$(ls -A collected | tr '\n' ' ')" 'good1 good2 log odd1 '

# a host that floods standard error, one that ends by no signal but one, and a name that the log has
printf '%s\n' flood deaf log >hosts
PATH=$work/commands:$PATH COLLECT_SECONDS=1 COLLECT_MEGABYTES=1 "$collect" hosts flooded 2>errors
is 'floods' "$(LC_ALL=C sort errors)" $'deaf: no answer in 1 seconds\nflood: more than 1 MB\nlog: no name of a host'
is 'their log' "$(cut -f 1-2 flooded/log | LC_ALL=C sort | tr '\t\n' ' |')" 'deaf 137|flood 153|'
is 'a bound that is none' "$(COLLECT_MEGABYTES=1x "$collect" hosts flooded 2>&1; echo "$?")" \
    $'acpidis-collect: COLLECT_MEGABYTES is no number of megabytes: 1x\n2'

# broken off: no part is left, nor ssh; what is left of older ones goes, and the survey passes over them
printf '%s\n' late >hosts
mkdir -p broken/.part.old/shut broken/.part.new
touch -d '2 hours ago' broken/.part.old
chmod 0 broken/.part.old/shut
for signal in INT TERM; do
    : >asked
    PATH=$work/commands:$PATH env --default-signal=INT setsid -w "$collect" hosts broken 2>/dev/null &
    while [ ! -s asked ]; do sleep 0.05; done
    pid=$(pgrep -f "^/bin/sh $collect hosts broken") && kill -s "$signal" -- "-$pid"
    wait "$!" 2>/dev/null
    while pgrep -f -- "$collect --one late" >/dev/null; do sleep 0.05; done
    is "parts after $signal" "$(cd broken && find . -mindepth 1 -maxdepth 1)" ./.part.new
    is "ssh after $signal" "$(pgrep -f "^/bin/sh $work/commands/ssh")" ''
done
cp "$demo/dsdt.dat" broken/.part.new
is 'no set' "$("$survey" --left broken /dev/null | tr '\0' '|')" ''

end
