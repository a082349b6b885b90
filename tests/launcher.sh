#!/bin/sh
# The launcher ./acpidis and the script ./build: the demo, the help, crates side by side, and what they say where they can't
# build. With the word copy only the rows that need no built program are tried: they use a copy of the launcher beside a command
# rt that only pretends. Else the program is built first where that is wanted. With the word real only the others are tried.

. "$(dirname -- "$0")/rows.sh"

# row NAME STATUS WANTED WORD..: the command has this status, and what it prints has this line
row() {
    name=$1 status=$2 line=$3
    shift 3
    "$@" >printed 2>&1 </dev/null
    is "$name" "$? $(grep -m 1 -xF -- "$line" printed || cat printed)" "$status $line"
}

# lists NAME WORD..: the command prints the demo's text and nothing else
lists() {
    listed=$1
    shift
    row "$listed" 0 '    Return (Arg0)' "$@"
    if cmp -s printed "$sources/stdout"; then pass; else fail "$listed, and nothing else"; fi
}

mkdir -p copy/docs copy/crates/acpidis_program/data/demo empty folder
cp "$top/acpidis" "$top/build" "$top/crates.txt" copy
cp "$top/docs/help.txt" copy/docs
cp -r "$sources/src" copy/crates/acpidis_program
sed -n 's|^\([a-z_]*\)[ :].*|copy/crates/\1/src|p' copy/crates.txt | xargs mkdir -p
path=$work/commands:/usr/bin:/bin

# what needs the built program
if [ "${1-}" != copy ]; then
    "$top/acpidis" --program >/dev/null 2>&1
    ln -s "$top/acpidis" link
    lists 'the demo' "$top/acpidis" demo
    row 'a check of the demo' 0 'Check "dsdt.dat" Bytes 9 Methods 1 Raw 0 Same' "$top/acpidis" --check demo
    lists 'the demo between options' "$top/acpidis" --workers 2 demo --any-sum
    lists 'the demo, as any run declares it' "$top/acpidis" --any-run demo
    lists 'a link' ./link demo
    row 'a file that is named demo' 1 'acpidis: cannot read "demo"' "$top/acpidis" --externals demo demo
    row 'two folders' 2 "For more information, try '--help'." "$top/acpidis" demo demo
    is 'the help that needs no build' "$("$top/acpidis" --help)" "$("$top/out/acpidis" --help 2>&1)"
fi
[ "${1-}" != real ] || end

# with nothing built, and no kit
none=$work/empty:/usr/bin:/bin
for word in --help -h; do
    row "$word, with nothing built" 0 'Usage: acpidis [OPTIONS] <FOLDER>' env PATH="$none" copy/acpidis "$word"
done
nokit="acpidis: the Rattle kit isn't there: its command rt proves and builds this program"
row 'no kit' 127 "$nokit" env PATH="$none" copy/acpidis demo

# a build that fails, with an older program in place
stub=copy/crates/acpidis_program/out/acpidis_program
printf '#!/bin/sh\necho stale\n' | script $stub
touch -d '2001-01-01' $stub
printf '#!/bin/sh\necho no proof\nexit 1\n' | script commands/rt
at_fault='acpidis: the build failed at the crate aml_names'
row 'a build that fails' 126 "$at_fault" env RT_JOBS=1 PATH="$path" copy/acpidis demo
row 'what the build said' 126 'no proof' env PATH="$path" copy/acpidis demo
is 'an hour is announced only where nothing is built' "$(grep -c 'an hour' printed)" 0
rm -r copy/crates/acpidis_program/out
hour='acpidis: building, which takes an hour of processor time the first time, since all that is built is proved'
row 'an hour' 126 "$hour" env PATH="$path" copy/acpidis demo
is 'a failed build leaves no program' "$(find copy -name 'acpidis.*')" ''

# where one crate fails, the others are ended
# shellcheck disable=SC2016 # the command expands them
printf '#!/bin/sh\ncase $PWD in *aml_names) sleep 1; exit 1 ;; esac\nps -o pgid= $$ >>"%s/begun"\nsleep 30\n' "$work" >commands/rt
start=$(date +%s)
row 'a crate that fails beside others' 126 "$at_fault" env RT_JOBS=4 PATH="$path" copy/acpidis demo
is 'the others are begun' "$(wc -l <begun)" 3
groups=$(ps -e -o pgid=,stat= | awk 'FNR == NR { begun[$1] = 1; next } $1 in begun && $2 !~ /^Z/' begun -)
is 'the others are ended' "$groups" ''
is 'at once' "$(($(date +%s) - start < 20))" 1

# a build that works; rt keeps a log of what begins and ends, and of how many jobs
# shellcheck disable=SC2016 # the command expands it
printf '#!/bin/sh\nprintf "%%s|" built "$@"\necho\n' | script made
script commands/rt <<S
#!/bin/sh
name=\${PWD##*/}
echo "begin \$name \$*" >>'$work/log'
ps -o ni= \$\$ >>'$work/nices'
sleep 0.2
if [ "\$1" = run ]; then install -D '$work/made' out/acpidis_program; fi
echo "end \$name" >>'$work/log'
S
# order: a crate that began before one below it had ended
order() {
    awk -F '[ :]+' '
        FNR == NR { if (/^[^#]*:/) below[$1] = $0; next }
        $1 == "end" { ended[$2] }
        $1 == "begin" {
            begun[$2]
            n = split(below[$2], low)
            for (i = 2; i <= n; i++) if (low[i] in below && !(low[i] in ended)) print $2, low[i]
        }
        END { for (name in begun) if (!(name in ended)) print name " has no end" }' copy/crates.txt log
}
for width in 1 2 4; do
    : >log
    rm -rf copy/crates/acpidis_program/out copy/out
    row "a build, $width at a time" 0 'built|folder|' env PATH="$path" RT_JOBS=$width copy/acpidis folder
    most=$(awk '/^begin/ { if (++now > most) most = now } /^end/ { now-- } END { print most }' log)
    is "crates at a time of $width" "$most" "$width"
    is "crates below first, $width at a time" "$(order)" ''
    is "each crate once, $width at a time" "$(grep -c '^begin' log) $(grep -c 'acpidis: built ' printed)" '18 18'
done
is 'the seconds of each crate are kept' "$(cut -d ' ' -f 1 copy/out/seconds | wc -l)" 18
is 'no crate gives way to all others' "$(sort -n nices | awk 'NR == 1 { least = $1 } END { print $1 - least }')" 3
is 'the longest chain first' "$(grep -m 1 'acpidis: building [a-z_]* ' printed)" 'acpidis: building aml_names (1 of 18)'
is 'the next of the longest chain beside three others, two jobs' "$(grep 'begin aml_names ' log)" 'begin aml_names lib --jobs 2'
is 'a crate of a short chain, one job' "$(grep 'begin aml_pool' log)" 'begin aml_pool lib --jobs 1'
is 'one crate, four processors' "$(grep 'begin acpidis_program' log | cut -d ' ' -f 3-5)" 'run --jobs 4'
rm -rf copy/crates/acpidis_program/out
echo 'text_writer 9000' >copy/out/seconds
row 'the times of the last build' 0 'acpidis: building text_writer (1 of 18)' env PATH="$path" RT_JOBS=1 copy/acpidis folder
mkdir links
ln -s ../copy/acpidis links/first
ln -s first links/second
usual=$PATH PATH=$none:$work/links
row 'a built program, without a kit' 0 'built|folder|' copy/acpidis folder
row 'words go to the program' 0 'built|--wrong|a b||' copy/acpidis --wrong 'a b' ''
where=$(cd copy && pwd -P)
row 'where the program lies' 0 "$where/out/acpidis" copy/acpidis --program
demo=$where/crates/acpidis_program/data/demo
row 'the word demo' 0 "built|--check|$demo|" copy/acpidis --check demo
row 'demo behind options' 0 "built|--externals|demo|--workers|demo|$demo|" copy/acpidis --externals demo --workers demo demo
row 'a link to a link' 0 'built|folder|' links/second folder
row 'a link on the PATH' 0 'built|folder|' second folder
row 'its own folder' 0 'built|crates|' env -C copy sh acpidis crates
PATH=$usual

# several at once, each of which has to put the program in its place
times=${TIMES-20}
for _ in $(seq "$times"); do
    rm -rf copy/out
    for number in 1 2 3 4; do copy/acpidis folder >"at$number" 2>&1 & done
    wait
    cat at?
done >all
is 'four at once' "$(sort all | uniq -c | sed 's/^ *//')" "$((4 * times)) built|folder|"
is 'no other file is left' "$(ls copy/out)" 'acpidis'

# a changed source
sleep 0.01
touch copy/crates/aml_load/src
: >log
row 'a changed source' 0 'built|folder|' env PATH="$path" RT_JOBS=4 copy/acpidis folder
is 'a changed source is built' "$(grep -c '^begin' log)" 18

end
