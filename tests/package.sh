#!/bin/sh
# ./package, in checkouts of their own: what both packages have, that checkouts at different paths give the same bytes, and what
# is said where no package can be made. In place of the built program stands one of a few lines, so this needs a C compiler. It
# wants the kit too. tests/package_trial.sh tries the packages where no kit is. The last line is 'N passed, N failed'.

. "$(dirname -- "$0")/rows.sh"
unset PREFIX DESTDIR LIBRARY
export GIT_CONFIG_GLOBAL=/dev/null

# lines TEXT..: each text in a line of its own, in order
lines() { printf '%s\n' "$@" | LC_ALL=C sort; }

# stand_in FILE TEXT: makes a program that says this of its version
script stand_in <<'S'
#!/bin/sh
printf '#include <stdio.h>\nint main(void) { return puts("%s") < 0; }\n' "$2" | "${CC:-cc}" -x c -o "$1" -
S

# sums: those of all files in the place of the first checkout's packages
sums() { (cd first/out/package && find . -type f -exec sha256sum {} + | sort); }

# refused NAME STATUS WANTED COMMAND..: a command has this status and says this line, and the packages stay as they are
refused() {
    row=$1 status=$2 line=$3 before=$(sums)
    shift 3
    "$@" >printed 2>&1 </dev/null
    is "$row, its status" $? "$status"
    is "$row, what is said" "$(grep -xF -- "$line" printed || cat printed)" "$line"
    is "$row, the packages" "$(sums)" "$before"
}

# two checkouts of one commit, and its program
mkdir first
(cd -- "$top" && tar -cf - --exclude=./.git --exclude=./out --exclude='./crates/*/out' .) | tar -xf - -C first || exit 1
(
    cd first && git init -q . && git add -A && git config user.name Someone && git config user.email someone@example.org &&
        git commit -q -m 'a checkout' && git clone -q . '../a second/checkout'
) || exit 1
commit=$(git -C first rev-parse HEAD)
version=$(sed -n 's/.*VERSION: &str = "\(.*\)";/\1/p' "$sources/src/version.rt")
logic=$(rt version | sed 's/.* logic //')
stamp="acpidis $version commit $commit logic $logic"
./stand_in program "$stamp" || exit 1
export PROGRAM="$work/program"

said=$(first/package)
archive=acpidis-$version-linux-amd64
package=first/out/package/acpidis_${version}_amd64.deb
is 'what is said' "$(printf '%s\n' "$said" | sed 's/.* //')" "$work/$package
$work/first/out/package/$archive.tar.xz"
is 'the sizes' "$(printf '%s\n' "$said" | awk '{ print $2 }')" "$(stat -c %s "$package" "first/out/package/$archive.tar.xz")"
is 'what lies there' "$(ls -A first/out/package)" "$(lines SHA256SUMS "$archive.tar.xz" "${package##*/}")"
is 'the sums' "$(cd first/out/package && sha256sum -c --quiet SHA256SUMS 2>&1 && wc -l <SHA256SUMS)" 2
(umask 077 && cd / && TZ=Asia/Tokyo "$work/a second/checkout/package" >/dev/null)
is 'the same from another path' "$(cat 'a second/checkout/out/package/SHA256SUMS')" "$(cat first/out/package/SHA256SUMS)"

# what is in them
dpkg-deb -R "$package" debian
mkdir archive installed papers
tar -xJf "first/out/package/$archive.tar.xz" -C archive
DESTDIR=$work/installed PREFIX=/ first/install >/dev/null
docs=share/doc/acpidis
is 'owners and modes' "$(dpkg-deb -c "$package" | awk '{ print $1, $2 }' | sort -u)" \
    "$(lines '-rw-r--r-- root/root' '-rwxr-xr-x root/root' 'drwxr-xr-x root/root' 'lrwxrwxrwx root/root')"
is 'all has the time of the commit' "$(dpkg-deb -c "$package" | awk '{ print $4, $5 }' | sort -u)" \
    "$(date -d "@$(git -C first log -1 --format=%ct)" '+%F %H:%M')"
is 'the sums of files' "$(cd debian && md5sum -c --quiet DEBIAN/md5sums 2>&1)" ''
is 'files with sums' "$(wc -l <debian/DEBIAN/md5sums)" "$(find debian/usr -type f | wc -l)"
is 'the version' "$(dpkg-deb -f "$package" Version)" "$version"
is 'the changelog' "$(zcat "debian/usr/$docs/changelog.gz" | head -n 1)" "acpidis ($version) unstable; urgency=low"
if command -v dpkg-shlibdeps >/dev/null; then
    mkdir -p shlibs/debian && printf 'Source: acpidis\n\nPackage: acpidis\nArchitecture: any\n' >shlibs/debian/control
    is 'what it depends on' "shlibs:Depends=$(dpkg-deb -f "$package" Depends)" \
        "$(cd shlibs && dpkg-shlibdeps -O "$PROGRAM" 2>/dev/null)"
fi
if command -v lintian >/dev/null; then is 'lintian' "$(lintian --allow-root "$package" 2>&1)" ''; fi
is 'the program' "$("archive/$archive/bin/acpidis" --version)" "$stamp"
is 'one folder in the archive' "$(ls archive)" "$archive"
strip installed/bin/acpidis
mv "archive/$archive/$docs/copyright" "archive/$archive/$docs/made_of.txt" papers
is 'the archive and ./install have the same' "$(diff -r installed "archive/$archive" 2>&1)" ''
for name in copyright made_of.txt; do
    is "$name is in both" "$(cksum <"debian/usr/$docs/$name")" "$(cksum <"papers/$name")"
    rm "debian/usr/$docs/$name"
done
rm "debian/usr/$docs/changelog.gz"
gunzip debian/usr/share/man/man1/acpidis.1.gz
for link in debian/usr/share/man/man1/acpidis-*.gz; do
    to=$(readlink "$link")
    rm "$link" && ln -s "${to%.gz}" "${link%.gz}"
done
sed -i 's|/usr/local/|/usr/|' installed/share/man/man1/acpidis.1
mv installed/share/zsh/site-functions installed/share/zsh/vendor-completions
is "Debian's package and ./install have the same" "$(diff -r installed debian/usr 2>&1)" ''

# what they say that they are made of
has() { is "made_of.txt has $1" "$(grep -cxF -- "$2" papers/made_of.txt)" 1; }
has 'what the program says' "  $stamp"
has 'the kit' "  $(rt version)"
has 'the sum of the program' "The program's SHA-256 $(sha256sum <installed/bin/acpidis | cut -d ' ' -f 1)"
has 'the handles' "Handles, beside files and the terminal: $(sed 's/.*: \(.*\)\./\1/' "$top/HANDLES")"
has 'that no licence is given' 'Licence: none is given. copyright has the licences of the libraries.'
how=$(grep -F 'find src' papers/made_of.txt)
crates=$(sed -n 's/^  [0-9a-f]\{64\}  //p' papers/made_of.txt)
is 'all crates of the program' "$(printf '%s\n' "$crates" | wc -l)" 18
for crate in $crates; do has "the crate $crate" "  $(cd "first/crates/$crate" && eval "$how" | cut -c 1-64)  $crate"; done
for library in clap smallvec strsim; do
    is "the licence of $library" "$(grep -c "^$library [0-9.]*$" papers/copyright)" 1
done

# with a library, here one of a function
dpkg-deb -R "$package" plain
mkdir library
printf '#include <stdio.h>\nint acpidis_open(void *set) { return puts(set); }\n' |
    "${CC:-cc}" -x c -shared -fPIC -Wl,-soname,libacpidis.so.0 -o library/libacpidis.so.0 -
touch library/libacpidis.a library/acpidis.pc
(cd first && LIBRARY=$work/library ./package) >/dev/null
at=first/out/package
is 'the packages with a library' "$(cd $at && ls -A -- *.deb)" \
    "$(lines "acpidis_${version}_amd64.deb" "libacpidis-dev_${version}_amd64.deb" "libacpidis0_${version}_amd64.deb" \
        "python3-acpidis_${version}_amd64.deb")"
for name in acpidis libacpidis0 libacpidis-dev python3-acpidis; do
    dpkg-deb -R "$at/${name}_${version}_amd64.deb" "$name"
    is "$name, the sums of its files" "$(cd "$name" && md5sum -c --quiet DEBIAN/md5sums 2>&1)" ''
    (cd "$name" && find usr ! -type d | LC_ALL=C sort) >"$name.files"
    is "$name, its papers" "$(grep -c "^usr/share/doc/$name/\(changelog.gz\|copyright\)$" "$name.files")" 2
done
is 'no file is in two packages' "$(cat acpidis.files libacpidis0.files libacpidis-dev.files python3-acpidis.files | sort | uniq -d)" ''
is 'the program has the same files' "$(cat acpidis.files)" "$(cd plain && find usr ! -type d | LC_ALL=C sort)"
# those of NAME: its files without its papers
those() { grep -v "^usr/share/doc/$1/c" "$1.files" | tr '\n' ' '; }
is 'the library' "$(those libacpidis0)" 'usr/lib/libacpidis.so.0 '
is 'what programs in C want' "$(those libacpidis-dev)" 'usr/include/acpidis.h usr/lib/libacpidis.a usr/lib/libacpidis.so '\
'usr/lib/pkgconfig/acpidis.pc usr/share/doc/acpidis/example.c usr/share/man/man3/acpidis.3.gz '
is 'what Python wants' "$(those python3-acpidis)" 'usr/lib/python3/dist-packages/acpidis.py '
is 'what they depend on' "$(sed -n 's/^Depends: //p' libacpidis-dev/DEBIAN/control python3-acpidis/DEBIAN/control)" \
    "libacpidis0 (= $version)
libacpidis0 (= $version), python3"
is 'the C library' "$(sed -n 's/^Depends: libc6 (>= [0-9.]*)$/there/p' libacpidis0/DEBIAN/control)" there
is 'the linker is told' "$(cat libacpidis0/DEBIAN/triggers libacpidis0/DEBIAN/shlibs)" "activate-noawait ldconfig
libacpidis 0 libacpidis0 (>= $version)"
rm -r "$at"/libacpidis* "$at"/python3* acpidis libacpidis0 libacpidis-dev python3-acpidis
first/package >/dev/null

# a program that is built here: a command rt in front of the kit's writes into it what the copy of its source says
script commands/rt <<S
#!/bin/sh
case \$1 in version | doc) exec '$(command -v rt)' "\$@" ;; esac
echo "\${PWD##*/}" >>'$work/log'
if [ "\$1" = run ]; then
    mkdir -p out
    '$work/stand_in' out/acpidis_program "acpidis \$(sed -n 's/.*VERSION: &str = "\(.*\)";/\1/p' src/version.rt)"
fi
S
sed '/^echo/{s/.*/exit 1/;q}' commands/rt | script failing/rt
refused 'a build that fails' 126 'package: ./acpidis ended with status 126' \
    env -u PROGRAM PATH="$work/failing:$PATH" first/package
built() { env -u PROGRAM PATH="$work/commands:$PATH" first/package 2>/dev/null; }
is 'a program that is built' "$(built)" "$said"
is 'its sources stay as they are' "$(git -C first status --porcelain)" ''
rm log
is 'it is not built again' "$(built) $(cat log 2>&1)" "$said cat: log: No such file or directory"
git -C first commit -q --allow-empty -m 'another commit'
is 'it is, from another commit' "$(built | wc -l) $(wc -l <log)" '2 18'
is 'of which the program tells' "$(first/out/acpidis)" "acpidis $version commit $(git -C first rev-parse HEAD) logic $logic"
git -C first reset -q --hard HEAD~
first/package >/dev/null

# what is changed
echo >>first/docs/limits.md
./stand_in dirty "acpidis $version+dirty commit $commit logic $logic"
refused 'a program of the commit, where something is changed' 1 "package: $work/program says" first/package
PROGRAM=$work/dirty first/package >/dev/null
is 'changes' "$(ls first/out/package)" "$(lines SHA256SUMS "$archive.tar.xz" "${package##*/}" \
    "acpidis-$version+dirty-linux-amd64.tar.xz" "acpidis_$version+dirty_amd64.deb")"
git -C first checkout -q .

# what isn't there
rm -r commands
mkdir commands
for name in git tar xz gzip dpkg-deb readelf strip rt; do ln -s "$(command -v $name)" commands; done
python=$(python3 -c 'import sys; print(sys.executable)')
for pair in dpkg-deb:dpkg xz:xz-utils readelf:binutils git:git; do
    name=${pair%:*}
    mv "commands/$name" .
    refused "no $name" 1 "package: no $name: Debian's package ${pair#*:} has it" \
        env PATH="$work/commands" "$python" first/package
    mv "$name" commands
done
rm commands/rt
refused 'no kit' 127 "package: the Rattle kit isn't there: put the folder that has rt on the PATH" \
    env PATH="$work/commands" "$python" first/package
mv first/.git .
refused 'no commit' 1 'package: no commit is known: this wants to be a checkout of git, of the user who runs it' first/package
mv .git first
./stand_in older "acpidis $version commit 0123 logic $logic"
refused 'a program of another commit' 1 "  acpidis $version commit 0123 logic $logic" env PROGRAM="$work/older" first/package
refused 'no program' 1 '  No such file or directory' env PROGRAM="$work/none" first/package
printf '#!/bin/sh\necho "%s"\n' "$stamp" | script script
refused 'a script for a program' 1 'package: strip ended with status 1' env PROGRAM="$work/script" first/package
refused 'a word' 2 'package: error: unrecognized arguments: --what' first/package --what

# what is in the way
refused 'a second one at the same time' 1 "package: another ./package is at work in $work/first/out/package" \
    flock first/out/package first/package
is 'nothing is left of those' "$(find first/out/package -name '.part.*')" ''
for limit in "100 package: ./install ended with status 1" "500 package: dpkg-deb ended with status 2"; do
    refused "no file may be larger than ${limit%% *} blocks" 1 "${limit#* }" sh -c "ulimit -f ${limit%% *}; exec first/package"
done
if unshare -rm true 2>/dev/null; then
    # shellcheck disable=SC2016 # the inner shell expands it
    full='mount -t tmpfs -o size=200k none first/out && first/package
        status=$?
        find first/out -type f -printf "left: %p\n"
        exit $status'
    refused 'a full disk' 1 'package: ./install ended with status 1' unshare -rm sh -c "$full"
    is 'a full disk, what is left there' "$(grep '^left: ' printed)" ''
fi
mkdir first/out/package/.part.killed
first/package >/dev/null
is 'nothing is left of one that was killed' "$(find first/out/package -name '.part.*')" ''
printf '#!/bin/sh\ntouch "%s/begun"\nsleep 20\n' "$work" | script slow/dpkg-deb
before=$(sums)
PATH="$work/slow:$PATH" first/package >/dev/null 2>&1 &
while [ ! -e begun ] && kill -0 $! 2>/dev/null; do sleep 0.1; done
kill $!
wait $!
is 'one that is ended' $? 130
is 'nothing is left of it' "$(sums)" "$before"
rm -r first/out
: >first/out
is 'a file in the way' "$(first/package 2>&1)" "package: $work/first/out/package: Not a directory"

end
