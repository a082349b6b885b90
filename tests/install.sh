#!/bin/sh
# ./install and ./install --remove, in a prefix of their own, and the completion. The last line is 'N passed, N failed'.

. "$(dirname -- "$0")/rows.sh"
unset PREFIX DESTDIR PROGRAM LIBRARY

files() { find "$1" -type f -o -type l | LC_ALL=C sort; }

# sorted COMMAND..: what it prints, in order
sorted() { "$@" 2>&1 | LC_ALL=C sort; }

prefix="$work/a library's prefix"
mkdir library && touch library/libacpidis.so.0 library/libacpidis.a library/acpidis.pc
said=$(LIBRARY=$work/library PREFIX=$prefix sorted "$top/install" --library)
module="PYTHONPATH=$prefix/lib/python3/dist-packages ACPIDIS_LIBRARY=$prefix/lib/libacpidis.so.0"
is 'what to set' "$(printf '%s\n' "$said" | sed -n 's/^install: //p')" "C finds it after ldconfig, Python by $module"
said=$(printf '%s\n' "$said" | grep -v '^install: ')
is 'what is said of the library' "$said" "$(files "$prefix")"
is 'what the library is' "$(files "$prefix" | wc -l)" 8
is 'what is said of its removal' "$(PREFIX=$prefix sorted "$top/install" --remove)" "$said"
is 'what is left of it' "$(files "$prefix")" ''
prefix="$work/a prefix"
said=$(umask 077 && PREFIX=$prefix sorted "$top/install")
is 'what is said' "$said" "$(files "$prefix")"
page=$prefix/share/man/man1/acpidis.1
for file in bin/acpidis share/man/man1/acpidis.1 share/doc/acpidis/refusals.md share/zsh/site-functions/_acpidis \
    share/bash-completion/completions/acpidis share/fish/vendor_completions.d/acpidis.fish; do
    is "$prefix/$file" "$(printf '%s\n' "$said" | grep -cxF -- "$prefix/$file")" 1
done
is 'it runs' "$("$prefix/bin/acpidis" "$demo")" "$(cat "$sources/stdout")"
is 'it is what the launcher runs' "$(cksum <"$prefix/bin/acpidis")" "$(cksum <"$("$top/acpidis" --program)")"
is 'modes, whatever the umask' "$(find "$prefix/share" -printf '%m %y|\n' | sort -u | tr -d '\n')" '644 f|755 d|755 f|777 l|'
is 'examples that are run' "$(find "$prefix/share" -type f -perm 755 | wc -l)" \
    "$(find "$top/examples" -type f -perm /111 | wc -l)"
is 'the mode of the program' "$(stat -c %a "$prefix/bin/acpidis")" 755
if command -v man >/dev/null; then is 'the page is found' "$(man -M "$prefix/share/man" -w acpidis 2>&1)" "$page"; fi
is 'each command has it' "$(cd "$prefix/share/man/man1" && grep -lF '.TH ACPIDIS' -- * | sort)" \
    "$(cd "$prefix/bin" && printf '%s.1\n' acpidis* | sort)"
docs=$prefix/share/doc/acpidis
is 'commands find the program' "$(PATH=$prefix/bin:$PATH acpidis-missing "$demo" 2>&1)" '# no body waits for a name'
is 'commands find it beside them' "$("$prefix/bin/acpidis-missing" "$demo" 2>&1)" '# no body waits for a name'
is 'scripts find it' "$("$prefix/share/acpidis/missing.py" "$demo" 2>&1)" '# no body waits for a name'
mkdir sets && cp -r "$demo" sets
is 'the survey finds it' "$("$prefix/bin/acpidis-survey" sets one 2>&1 && "$prefix/share/acpidis/survey.sh" sets two 2>&1)" \
    "$(printf 'acpidis-survey: status 0: 1\nacpidis-survey: status 0: 1')"
is 'another program' "$(ACPIDIS=/none/acpidis "$prefix/bin/acpidis-missing" "$demo" 2>&1)" \
    'acpidis-missing: no program acpidis: install it, or name it in ACPIDIS'
for script in "$top"/examples/*.py "$top"/examples/*.sh; do
    name=${script##*/}
    if [ -x "$script" ]; then
        is "acpidis-${name%.*}" "$(PATH=$prefix/bin:$PATH "acpidis-${name%.*}" --help 2>&1 | grep -c .)" "$("$script" --help 2>&1 | grep -c .)"
    fi
done
is 'the survey as a command' "$(PATH=$prefix/bin:$PATH acpidis-survey sets lines 2>&1 && cut -f 1-3 lines)" \
    "$(printf 'acpidis-survey: status 0: 1\ndemo\t0\t-')"
is 'pages that the manual names' "$(sed -n 's|.*doc/acpidis/\([a-z_]*\.md\).*|\1|p' "$page" | sort -u |
    while read -r name; do [ -f "$docs/$name" ] || echo "$name"; done)" ''
is 'commands that the pages name' "$(grep -oh '`acpidis-[a-z]*' "$docs"/*.md | tr -d '`' | sort -u |
    while read -r name; do [ -x "$prefix/bin/$name" ] || echo "$name"; done; grep -lE 'examples/|[^/](asl|facts|missing|page|refused|survey|unpack)\.(py|sh)' "$docs"/*.md)" ''
# those of a quoted source are its own
links() {
    awk '/^```/ { code = !code; next } !code' "$docs"/*.md | grep -o '](\([^)]*\))' | sed 's/^](//; s/[#)].*//' | sort -u
}
is 'links of the pages' "$(links | while read -r name; do [ -z "$name" ] || [ -f "$docs/$name" ] || echo "$name"; done)" ''
is 'links there are' "$(links | grep -cx 'README.md\|page.png\|figures.svg')" 3
is 'all scripts are there' "$(cd "$prefix/share/acpidis" && find . -type f | sort)" \
    "$(cd "$top/examples" && find . -type f ! -name '*.pyc' ! -name 'acpidis.*' | sort)"
is 'the page of a listing' "$("$prefix/bin/acpidis-page" "$sources/stdout" 2>&1 | cksum)" \
    "$("$top/examples/page.py" "$sources/stdout" | cksum)"
is 'a second time' "$(PREFIX=$prefix sorted "$top/install")" "$said"
touch "$prefix/bin/other"
is 'what is taken away' "$(PREFIX=$prefix sorted "$top/install" --remove)" "$said"
is 'what is left' "$(files "$prefix")" "$prefix/bin/other"
is 'taken away twice' "$(PREFIX=$prefix "$top/install" --remove)" ''

# completion, as bash calls it
completed() {
    PATH=$top:$PATH bash -c '. "$1"; COMP_WORDS=("${@:2}"); COMP_CWORD=$(($# - 2)); compopt() { :; }
        _acpidis; echo "${COMPREPLY[*]}"' - "$top/examples/acpidis.bash" "$@"
}
options=$("$("$top/acpidis" --program)" --help 2>&1 | grep -o -- '--[a-z][a-z-]*' | sort -u | tr '\n' ' ')
is 'completion has the options' "$(completed acpidis -- | tr ' ' '\n' | sort | tr '\n' ' ')" "$options"
is 'a part of an option' "$(completed acpidis --a)" '--any-sum --any-run'
is 'a part of an option, by the program itself' "$(completed "$("$top/acpidis" --program)" --a)" '--any-sum --any-run'
mkdir folder && : >file
is 'a folder' "$(completed acpidis f)" folder
is 'a file' "$(completed acpidis --externals f | tr ' ' '\n' | sort | tr '\n' ' ')" 'file folder '
is 'a number' "$(completed acpidis --workers 3)" 32
script later <<'S'
#!/bin/sh
printf '%s\n' 'Usage: later' '' 'Options:' '  -f, --from <FILE>  a file' '      --flag' '' 'Others:' '      --other'
S
is 'options of another help' "$(completed ./later -)" '--from --flag'
is 'a file for one of them' "$(completed ./later --from fil)" file
if command -v zsh >/dev/null; then
    # shellcheck disable=SC2016 # zsh expands it
    zsh -fc 'words=("$1"); _call_program() { shift; "$@" }; _arguments() { print -l -- "$@" }; . "$2"' - \
        "$top/acpidis" "$top/examples/acpidis.zsh" >told
    is 'the options for zsh' "$(grep -o -- '^--[a-z-]*' told | sort | tr '\n' ' ')" "$options"
    is 'their values for zsh' "$(sed -n 's/^--\([a-z]*\).*\]:/\1 /p' told)" 'workers number:(1 2 4 8 16 32 64)
externals file:_files'
fi
if command -v fish >/dev/null; then
    # fish_completed LINE
    fish_completed() {
        PATH=$top:$PATH fish --no-config -c 'source $argv[1]; complete -C $argv[2]' "$top/examples/acpidis.fish" "$1" | cut -f 1 | tr '\n' ' '
    }
    is 'the options for fish' "$(fish_completed 'acpidis --' | tr ' ' '\n' | sort | tr '\n' ' ' | sed 's/^ //')" "$options"
    is 'a folder for fish' "$(fish_completed 'acpidis f')" 'folder/ '
    is 'a file for fish' "$(fish_completed 'acpidis --externals fi')" 'file '
    is 'a number for fish' "$(fish_completed 'acpidis --workers 3')" '32 '
fi
rm -r folder file

# links and folders in the way
prefix=$work/links
mkdir -p "$prefix/bin" aside
: >aside/file
ln -s "$work/aside/file" "$prefix/bin/acpidis"
ln -s "$work/aside/file" "$prefix/bin/acpidis.new"
PREFIX=$prefix "$top/install" >/dev/null
is 'no link is followed' "$(cat aside/file)$(stat -c %F "$prefix/bin/acpidis")" 'regular file'
is 'no other file is left' "$(cd "$prefix/bin" && echo acpidis acpidis.*)" 'acpidis acpidis.new'
prefix=$work/taken
mkdir -p "$prefix/bin/acpidis"
is 'a folder is refused' "$(PREFIX=$prefix "$top/install" 2>&1)" "install: $prefix/bin/acpidis is a folder"
is 'nothing goes into it' "$(files "$prefix")" ''
ln -s "$top/install" install
is 'through a link' "$(PREFIX=$work/linked sorted ./install | head -n 1)" "$work/linked/bin/acpidis"

PREFIX=$work/other PROGRAM=$top/build "$top/install" >/dev/null
is 'another program' "$(cksum <other/bin/acpidis)" "$(cksum <"$top/build")"
is 'a package' "$(DESTDIR=$work/package "$top/install" | head -n 1)" "$work/package/usr/local/bin/acpidis"
DESTDIR=$work/package "$top/install" --remove >/dev/null
is 'a package that is taken away' "$(files package)" ''
is 'help' "$("$top/install" --help | head -n 1)" 'Usage: [PREFIX=..] [DESTDIR=..] [PROGRAM=..] [LIBRARY=..] ./install [--library] [--remove]'
is 'another word' "$("$top/install" --delete 2>&1 | head -n 1 | cut -c 1-6)" 'Usage:'
is 'two words' "$("$top/install" --remove more 2>/dev/null; echo "$?")" 2
is 'a prefix that is no whole path' "$(PREFIX=usr "$top/install" 2>&1)" 'install: PREFIX has to begin with /: usr'
is 'an empty prefix' "$(PREFIX='' "$top/install" 2>&1)" 'install: PREFIX has to begin with /: '
mkdir shut
: >shut/bin
said=$(PREFIX=$work/shut "$top/install" 2>&1 | tail -n 1)
is 'where nothing can be written' "$said" "install: cannot write $work/shut/bin/acpidis"

end
