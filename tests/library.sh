#!/bin/sh
# Makes the repository of docs/library.md by the commands of that page, which takes a second, and compares what the page
# shows. With --try the example is built without a proof and run there, in about a minute; with --prove all is
# proved first, in about an hour of processor time. The last line is 'N passed, N failed'.

. "$(dirname -- "$0")/rows.sh"
page=$top/docs/library.md

# block KIND: the first block of this kind on the page
block() {
    awk -v begin="\`\`\`$1" '$0 == "```" { if (seen) exit } seen { print } $0 == begin { seen = 1 }' "$page"
}

block sh >commands.sh
if [ ! -s commands.sh ]; then
    fail "$page has no commands"
    end
fi

# The page takes what is committed; this takes what is there, so that a change is tried before it is committed.
mkdir jigmadder mine
(cd -- "$top" && tar -cf - --exclude=out HANDLES crates.txt crates) | tar -xf - -C jigmadder || exit 1
cd jigmadder && git init -q . && git add -A &&
    git -c user.name=test -c user.email=test@localhost commit -qm all || exit 1

cd ../mine || exit 1
# shellcheck disable=SC1091
. ../commands.sh
is 'the commands of the page' "$?" 0
is 'what the page shows' "$(block text)" "$(cat stdout)"
case ${1-} in
--try) is 'what the example prints' "$(rt try -- "$PWD/data/demo" 2>../errors)" "$(cat stdout)" ;;
--prove) is 'what the example prints' "$(rt run -- demo 2>../errors)" "$(cat stdout)" ;;
esac
[ "$failed" = 0 ] || cat ../errors 2>/dev/null
end
