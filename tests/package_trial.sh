#!/bin/sh
# The packages of out/package on a Debian without the Rattle kit, which debootstrap makes from Debian's packages alone: the
# oldest release that has a late enough C library. Debian's package is installed, run and removed there, the archive is run by
# a user who may write nowhere, and the commands of docs/many.md bring both to a host. It takes a minute or more.
#
#   [MIRROR=..] tests/package_trial.sh
#
# It wants root, debootstrap, and a mirror of Debian, http://deb.debian.org/debian if left out. ./package comes first. The last
# line is 'N passed, N failed'; where it can't be tried, it says so, with status 77.

. "$(dirname -- "$0")/rows.sh"

not_tried() {
    echo "the packages were not tried: $*" >&2
    exit 77
}

command -v debootstrap >/dev/null || not_tried "no debootstrap: Debian's package debootstrap has it"
[ "$(id -u)" = 0 ] || not_tried 'debootstrap and chroot want root'
version=$(sed -n 's/.*VERSION: &str = "\(.*\)";/\1/p' "$sources/src/version.rt")
if [ -n "$(git -C "$top" status --porcelain)" ]; then version=$version+dirty; fi
package=$top/out/package/acpidis_${version}_amd64.deb
archive=$top/out/package/acpidis-$version-linux-amd64.tar.xz
if [ ! -f "$package" ] || [ ! -f "$archive" ]; then not_tried "no packages of $version: ./package makes them"; fi

if command -v lintian >/dev/null; then is 'lintian' "$(lintian --allow-root "$package" 2>&1)" ''; fi
least=$(dpkg-deb -f "$package" Depends | sed 's/.*libc6 (>= \(.*\)).*/\1/')
for release in bullseye:2.31 bookworm:2.36 trixie:2.41 none:; do
    if dpkg --compare-versions "${release#*:}" ge "$least"; then break; fi
done
release=${release%:*}
[ "$release" != none ] || not_tried "no release of Debian is known that has a C library of $least"

root=$work/root
echo "Debian's $release, for a C library of $least" >&2
mirror=${MIRROR-http://deb.debian.org/debian}
debootstrap --variant=minbase --include=python3 "$release" "$root" "$mirror" >"$work/log" 2>&1 || {
    tail -n 3 "$work/log" >&2
    not_tried 'debootstrap failed'
}
chmod 755 "$work"

# inside COMMAND: what a shell in the new root prints
inside() { chroot "$root" sh -c "cd / && $1" 2>&1; }

# all: every file there but the journals of dpkg
all() { (cd "$root" && find . -path ./var/lib/dpkg -prune -o -path ./var/log -prune -o -print | LC_ALL=C sort); }

is 'no kit' "$(inside 'ls -d /opt/* 2>/dev/null; command -v rt acpidis')" ''
mkdir "$root/demo"
cp "$demo"/* "$root/demo"
cp "$package" "$root/acpidis.deb"
all >"$work/before"

inside 'dpkg -i acpidis.deb' >/dev/null
is 'it is installed' "$(inside 'dpkg-query -W acpidis')" "acpidis	$version"
is 'its files are whole' "$(inside 'dpkg --verify acpidis')" ''
is 'its version' "$(inside 'acpidis --version' | cut -d ' ' -f 1-2)" "acpidis $version"
is 'the demo' "$(inside 'acpidis demo')" "$(cat "$sources/stdout")"
is 'a check of the demo' "$(inside 'acpidis --check demo')" 'Check "dsdt.dat" Bytes 9 Methods 1 Raw 0 Same'
is 'a page' "$(inside 'acpidis demo >listing && acpidis-page listing' | cksum)" \
    "$(cd "$root" && "$top/examples/page.py" listing | cksum)"
is 'it is a page' "$(inside 'acpidis-page listing' | grep -c '^<!DOCTYPE html>')" 1
rm "$root/listing"
is 'a script that runs it' "$(inside 'acpidis-missing demo')" '# no body waits for a name'
inside 'dpkg --purge acpidis' >/dev/null
all >"$work/after"
is 'nothing is left of it' "$(diff "$work/before" "$work/after")" ''
is 'nothing that dpkg knows' "$(inside 'dpkg-query -W acpidis; ls /var/lib/dpkg/info | grep acpidis')" \
    'dpkg-query: no packages found matching acpidis'

# the archive, by a user who may write nowhere
folder="/srv/a folder/of acpidis"
mkdir -p "$root$folder"
tar -xJf "$archive" -C "$root$folder"
folder=$folder/$(basename "$archive" .tar.xz)
chmod 755 "$root/tmp" "$root/var/tmp" "$root/run/lock" 2>/dev/null
chmod -R a+rX "$root/demo"
cp "$sources/stdout" "$root/listing"

# nobody COMMAND: what a shell of this user prints in the folder of the archive
nobody() { chroot --userspec=nobody:nogroup "$root" sh -c "cd '$folder' && $1" 2>&1; }

is 'nothing can be written' "$(nobody 'find / -xdev -writable ! -type l ! -path "/dev/*" ! -path "/proc/*" 2>/dev/null')" ''
is 'the demo, from a folder with blanks' "$(nobody 'bin/acpidis /demo')" "$(cat "$sources/stdout")"
is 'its version, from there' "$(nobody 'bin/acpidis --version' | cut -d ' ' -f 1-2)" "acpidis $version"
is 'a page, from there' "$(nobody 'bin/acpidis-page /listing' | grep -c '^<!DOCTYPE html>')" 1
chmod 1777 "$root/tmp"
is 'a script that runs it, from there' \
    "$(nobody "ACPIDIS='$folder/bin/acpidis' bin/acpidis-missing /demo")" '# no body waits for a name'

# the commands of the page, in a folder with both packages; ssh leads into the new root, where root needs no sudo
mkdir "$work/here"
script "$work/bin/ssh" <<S
#!/bin/sh
while [ "\$1" != -- ]; do shift; done
exec chroot '$root' sh -c "cd /root && \$3"
S
printf '#!/bin/sh\nshift\nexec "$@"\n' | script "$root/usr/bin/sudo"
mkdir -p "$root/sys/firmware/acpi"
cp -r "$root/demo" "$root/sys/firmware/acpi/tables"
cp "$package" "$archive" "$work/here"
echo host >"$work/here/hosts"
# brought WORD: runs the commands of the page's block that has this word
brought() {
    awk -v word="$1" '
        /^```/ { if (inside && index(text, word)) printf "%s", text; inside = !inside; text = ""; next }
        inside { text = text $0 "\n" }' "$top/docs/many.md" >"$work/commands"
    (cd "$work/here" && PATH=$work/bin:$PATH sh -e "$work/commands" 2>&1)
}
brought 'dpkg -i' >/dev/null
is 'the page installs it' "$(inside 'dpkg-query -W acpidis')" "acpidis	$version"
inside 'dpkg --purge acpidis' >/dev/null
is 'the page runs the archive' "$(brought 'xz -dc')" ''
is 'and has the text' "$(cat "$work/here/texts/host")" "$(cat "$sources/stdout")"

end
