#!/bin/sh
# What a harvest answers where a thread's start or a growth is refused. No answer may be 'wrong'. Without a limit it is
# 'whole', and some limit has to refuse each harvest a start.
#
# usage: tests/pool_refusals.sh [starts]
#
# With the word starts only the first part runs, as in ./test: a limit of the address space refuses starts of the built
# program crates/pool_bench, which takes a second. The second part refuses each growth of three harvests in turn, and takes
# half an hour, since each is a run of its own that is compiled anew.
. "$(dirname -- "$0")/rows.sh"
stop=yes
cd "$top/crates/pool_bench" || exit 1
[ -x out/pool_bench ] || rt run -- answer 2 7 >/dev/null 2>&1 || exit 1

# is_answer WHAT ANSWER: the answer is the whole one, or a refusal
is_answer() {
    case $2 in
    whole | 'no memory' | 'no thread' | Error*) pass ;;
    *) fail "$1: another answer: $2" ;;
    esac
}

# The first start is refused from 3,000 KB on, the second, which 2 workers don't need, from 12,000 KB on.
for words in '1 7' '2 7' '3 0' '3 7'; do
    refused=no
    for limit in 3000 6000 10000 12000 14000 18000 24000 32000 unlimited; do
        # dash and bash have ulimit -v, though POSIX doesn't name it
        # shellcheck disable=SC2086,SC3045
        answer=$( (ulimit -v "$limit"; ./out/pool_bench answer $words) 2>&1 | head -n 1)
        is_answer "$words, $limit KB" "$answer"
        if [ "$answer" = 'no thread' ]; then refused=yes; fi
    done
    [ "$answer" = whole ] || fail "$words, without a limit: $answer"
    # One worker is the caller's own thread.
    [ "$refused" = yes ] || [ "$words" = '1 7' ] || fail "$words: no limit refuses a start"
done

# Each growth is refused in turn, until three runs in a row meet no refusal. The first few are of the command line.
[ "${1-}" = starts ] || for words in '1 7' '2 7' '3 0'; do
    n=1
    whole=0
    while [ "$whole" -lt 3 ]; do
        # shellcheck disable=SC2086
        answer=$(rt try --fail-alloc "$n" -- answer $words 2>&1 | sed -n '/^whole$\|^wrong$\|^no \|^Error/p' | head -n 1)
        echo "$words, growth $n refused: $answer"
        is_answer "$words, growth $n refused" "$answer"
        if [ "$answer" = whole ]; then whole=$((whole + 1)); else whole=0; fi
        n=$((n + 1))
    done
done
end
