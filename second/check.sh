#!/bin/sh
# The programs' own behaviour: check.sh DIRECTORY-OF-THE-PROGRAMS
out=$1
failed=0
dir=$(mktemp -d) || exit 1
trap 'rm -rf "$dir"' EXIT

# same NAME: compares what was printed with what was expected
same() {
    if ! cmp -s "$dir/got" "$dir/want"; then
        echo "check.sh: $1: another output"
        diff "$dir/want" "$dir/got" | head -20
        failed=1
    fi
}

# status NAME WANTED GOT
status() {
    if [ "$2" -ne "$3" ]; then
        echo "check.sh: $1: exit status $3, not $2"
        failed=1
    fi
}

# Document 01's example: sizes 02 01 00 00 00 00 and six steps.
step=$(printf '\\000\\013')
{
    printf '\001\000\006\002\001\000\000\000\000'
    printf "$step"'\002\000\000\000\000\000\000\000\000\000\003'
    printf "$step"'\003\001\000\000\000\000\000\000\000\000\000'
    printf "$step"'\002\000\000\000\000\000\000\000\000\000\002'
    printf "$step"'\001\377\000\000\000\000\000\000\000\000\000'
    printf "$step"'\001\377\000\000\000\000\000\000\000\000\000'
    printf "$step"'\003\001\000\000\000\000\000\000\000\000\000'
} > "$dir/six"
cat > "$dir/want" <<'END'
step code run woke done
1 0 1 0 0
2 0 0 1 3
3 0 1 0 0
4 0 1 0 0
5 0 0 1 1
6 3 0 0 0
END
"$out/second" "$dir/six" > "$dir/got"
status 'six lines' 0 $?
same 'six lines'
"$out/second" < "$dir/six" > "$dir/got"
same 'six lines from standard input'

# The same, cut inside record 2.
head -c 24 "$dir/six" > "$dir/cut"
printf 'step code run woke done\n1 0 1 0 0\nstopped 2 12\n' > "$dir/want"
"$out/second" "$dir/cut" > "$dir/got"
status 'cut short' 0 $?
same 'cut short'

# The heading is printed always.
printf 'step code run woke done\nstopped 0 11\n' > "$dir/want"
"$out/second" < /dev/null > "$dir/got"
same 'empty'
printf 'step code run woke done\nstopped 0 15\n' > "$dir/want"
head -c 60001 /dev/zero | "$out/second" > "$dir/got"
same 'too long'
printf 'step code run woke done\nstopped 0 11\n' > "$dir/want"
head -c 60000 /dev/zero | "$out/second" > "$dir/got"
same 'not too long, but another version'

# All tables: one thread, semaphore, queue, reference, mailbox of 2, pool.
{
    printf '\001\000\007\001\001\001\001\001\001\002'
    printf "$step"'\026\377\000\000\000\000\005\000\000\000\000'
    printf "$step"'\017\000\000\377\377\377\371\000\000\000\000'
    printf "$step"'\015\000\001\000\000\000\001\000\000\000\000'
    printf "$step"'\016\000\000\377\377\377\377\377\377\377\376'
} > "$dir/all"
rows() {
    echo "semaphore 0 0"
    echo "queue 0 0"
    echo "reference 0 255"
    echo "mailbox 0 $1"
    echo "pool 0 1 1 5"
    echo "marks 0 0 0 0 0 0 1 0 0 0 0 0 0 0 0 0 0 0 0 0 0 0 0 0 0 0 0 0 0" \
         "0 0 0 0"
    echo "ready $2"
    printf 'waiting %s 0\n' s0 q0 w0 f0 p0
    echo "clock 0 1000"
    echo "steps $3"
}
{
    printf 'step code run woke done\n1 0 0 0 0\nanswer 0 0\n'
    echo 'thread 0 0 - 0 0 0 0 0 0 0 0 0 0 0 0'
    rows '0 0 0 0 0 0 0 0' 1 1
    printf '2 0 0 0 1\nanswer 0 0\n'
    echo 'thread 0 0 - 0 0 0 0 0 0 0 0 0 0 0 0'
    rows '0 1 1 0 0 0 -7 0' 1 2
    printf '3 5 0 0 0\nanswer 0 0\n'
    echo 'thread 0 0 - 0 0 0 0 0 0 0 0 0 0 0 0'
    rows '0 1 1 0 0 0 -7 0' 1 2
    printf '4 0 255 0 0\nanswer 0 0\n'
    echo 'thread 0 4 - 4294967294 0 4294967295 0 14 0 4294967295 4294967294' \
         '0 0 0 0'
    rows '0 1 1 0 0 0 -7 0' 0 3
} > "$dir/want"
"$out/second" --tables "$dir/all" > "$dir/got"
status 'all tables' 0 $?
same 'all tables'

# The words: seven threads that wait at two semaphores, a queue, the readers of
# two mailboxes and a pool; thread 6 stays ready.
{
    printf '\001\000\010\007\002\001\000\002\001\001\001'
    printf "$step"'\002\000\001\000\000\000\000\000\000\000\011'
    printf "$step"'\006\001\000\000\000\000\000\000\000\000\011'
    printf "$step"'\021\002\001\000\000\000\000\000\000\000\011'
    printf "$step"'\024\003\000\000\000\000\000\000\000\000\011'
    printf "$step"'\002\004\001\000\000\000\000\000\000\000\011'
    printf "$step"'\021\005\000\000\000\000\000\000\000\000\011'
} > "$dir/words"
cat > "$dir/want" <<'END'
ready 64
waiting s0 0
waiting s1 17
waiting q0 2
waiting w0 0
waiting f0 32
waiting w1 0
waiting f1 4
waiting p0 8
clock 0 1000
steps 6
END
"$out/second" --tables "$dir/words" | tail -n 11 > "$dir/got"
same 'words'

# small KIND CALLER OBJECT A TIMEOUT: a step of values below 256
small() {
    printf "$step"
    printf "$(printf '\\%03o\\%03o\\%03o\\000\\000\\000\\%03o\\000\\000\\000\\%03o' "$@")"
}

# The account: a mailbox of 4 slots and a pool. Messages 11, 10 and 13 are
# fetched, 12 is lost, 14 is there; object 7 is taken twice, at the end by an
# interrupt.
{
    printf '\001\000\007\002\000\000\000\001\001\004'
    for object in 8 9 7 3; do
        small 22 255 0 $object 0
    done
    small 15 0 0 10 0
    small 16 255 0 11 0
    small 15 0 0 12 0
    small 17 255 0 0 0
    small 17 0 0 0 0
    small 18 255 0 0 0
    small 19 0 0 0 0
    small 15 0 0 13 0
    small 17 255 0 0 0
    small 15 255 0 14 0
    small 11 0 0 0 9
    small 20 0 0 0 0
    small 20 1 0 0 0
    small 20 1 0 0 0
    small 21 1 0 7 0
    small 20 255 0 0 0
} > "$dir/account"
cat > "$dir/want" <<'END'
mailbox posted fetched lost present
0 5 3 1 1
pool added free out
0 4 2 2
pool object thread step
0 3 1 17
0 7 255 20
END
"$out/second" --account "$dir/account" > "$dir/got"
status 'account' 0 $?
same 'account'
"$out/second" --account < "$dir/account" > "$dir/got"
same 'account from standard input'
cat > "$dir/want" <<'END'
mailbox posted fetched lost present
0 5 3 1 1
pool added free out
0 4 3 1
pool object thread step
0 3 1 17
stopped 20 12
END
head -c 269 "$dir/account" | "$out/second" --account > "$dir/got"
status 'account cut short' 0 $?
same 'account cut short'
cat > "$dir/want" <<'END'
mailbox posted fetched lost present
pool added free out
pool object thread step
stopped 0 14
END
printf '\001\000\007\021\000\000\000\001\001\004' > "$dir/sizes"
"$out/second" --account "$dir/sizes" > "$dir/got"
status 'account without record 0' 0 $?
same 'account without record 0'

# Why threads woke. In the six lines a signal, then the last tick; the refused
# step is not there.
cat > "$dir/want" <<'END'
step thread cause object message
2 0 signal s0 0
5 0 tick s0 -1
END
"$out/second" --why "$dir/six" > "$dir/got"
status 'why' 0 $?
same 'why'
"$out/second" --tables "$dir/six" | grep '^thread 0' | tail -n 2 > "$dir/got"
cat > "$dir/want" <<'END'
thread 0 0 - 0 0 0 -1 0 0 0 0 -1 0 8 5
thread 0 0 - 0 0 0 -1 0 0 0 0 -1 0 8 5
END
same 'cause and step in the record'

# The number is the step number: record 4 is refused and does not count. In the
# last step thread 0 fetches and is woken by thread 1's post, which goes on.
{
    printf '\001\000\007\002\000\000\000\001\000\001'
    small 15 0 0 1 0
    small 11 0 0 0 1
    small 15 1 0 2 9
    small 3 255 0 0 0
    small 1 255 0 0 0
    small 17 0 0 0 0
    small 17 0 0 0 9
} > "$dir/crossing"
cat > "$dir/want" <<'END'
step thread cause object message
4 0 tick - -1
5 1 fetch w0 0
6 0 post f0 0
END
"$out/second" --why "$dir/crossing" > "$dir/got"
same 'why, by a continued call'

# Seven threads wait in each way, and are woken in turn. The last of them does
# not run yet, so that its message is in no answer. Cut short at the end.
{
    printf '\001\000\007\010\001\001\001\001\001\001'
    small 2 0 0 0 9
    small 6 1 0 0 9
    small 9 2 0 0 9
    small 17 3 0 0 9
    small 20 4 0 0 9
    small 14 5 0 3 9
    small 11 6 0 0 1
    small 1 255 0 0 0
    small 13 255 5 1 0
    small 22 255 0 4 0
    small 16 255 0 7 0
    small 10 255 0 5 0
    small 4 255 0 0 0
    small 8 255 0 200 0
    small 1 255 0 0 0
} > "$dir/ways"
cat > "$dir/want" <<'END'
step thread cause object message
8 6 tick - -1
9 5 event - 0
10 4 signal p0 0
11 3 post f0 0
12 2 resume r0 5
13 0 reset s0 -2
14 1 release q0 200
stopped 15 12
END
head -c 200 "$dir/ways" | "$out/second" --why > "$dir/got"
status 'why of all ways to wait' 0 $?
same 'why of all ways to wait'
printf 'step thread cause object message\nstopped 0 11\n' > "$dir/want"
"$out/second" --why < /dev/null > "$dir/got"
same 'why of nothing'

# Saved tables: 1588 bytes, of the steps before a bad record too; none without
# record 0.
"$out/second" --save "$dir/last" "$dir/six" > "$dir/got"
status 'save' 0 $?
: > "$dir/want"
same 'save'
head -c 35 "$dir/six" | "$out/second" --save "$dir/first" > "$dir/got"
status 'save, read from standard input' 0 $?
same 'save, read from standard input'
head -c 40 "$dir/six" | "$out/second" --save "$dir/first" > "$dir/got"
status 'save, cut short' 0 $?
echo 'stopped 3 12' > "$dir/want"
same 'save, cut short'
head -c 4 "$dir/six" | "$out/second" --save "$dir/none" > "$dir/got"
status 'save without record 0' 0 $?
echo 'stopped 0 12' > "$dir/want"
same 'save without record 0'
[ ! -e "$dir/none" ] || { echo "check.sh: tables of no trace saved"; failed=1; }
wc -c < "$dir/last" | tr -d ' ' > "$dir/got"
echo 1588 > "$dir/want"
same 'the length of saved tables'
"$out/second" --save "$dir/missing/saved" "$dir/six" 2> "$dir/message"
status 'save into no folder' 1 $?
[ -s "$dir/message" ] || { echo "check.sh: no message"; failed=1; }

# What steps 3 to 5 of the six changed; the sixth is refused.
cat > "$dir/want" <<'END'
thread 0 message 0 -1
thread 0 answer.message 0 -1
thread 0 cause 1 8
thread 0 step 2 5
clock 0 time 0 2
steps 0 number 2 5
END
"$out/changes" "$dir/first" "$dir/last" > "$dir/list"
status 'changes' 1 $?
cp "$dir/list" "$dir/got"
same 'changes'
"$out/changes" --apply "$dir/first" "$dir/list" "$dir/applied"
status 'changes applied' 0 $?
cmp -s "$dir/applied" "$dir/last" || {
    echo "check.sh: changes applied give other tables"
    failed=1
}
: > "$dir/want"
"$out/changes" "$dir/applied" "$dir/last" > "$dir/got"
status 'no changes' 0 $?
same 'no changes'

# Refusals: other sizes, tables that do not hang together, damaged files.
"$out/second" --save "$dir/other" "$dir/all"
echo 'refused 5' > "$dir/want"
"$out/changes" "$dir/last" "$dir/other" > "$dir/got"
status 'changes of other sizes' 3 $?
same 'changes of other sizes'
echo 'thread 1 remaining 0 1' > "$dir/list"
"$out/changes" --apply "$dir/last" "$dir/list" "$dir/broken"
status 'changes that break' 0 $?
echo 'refused 1' > "$dir/want"
"$out/changes" "$dir/broken" "$dir/other" > "$dir/got"
status 'changes of broken tables' 3 $?
same 'changes of broken tables'
head -c 1587 "$dir/last" > "$dir/short"
cat "$dir/last" "$dir/six" > "$dir/long"
for pair in short:12 long:13 six:11; do
    echo "refused ${pair#*:}" > "$dir/want"
    "$out/changes" "$dir/last" "$dir/${pair%:*}" > "$dir/got"
    status "changes of a file refused with ${pair#*:}" 3 $?
    same "changes of a file refused with ${pair#*:}"
done

# Wrong usage, files that are not there, lines that are no entries.
: > "$dir/want"
echo 'thread 1 remaining 0 1 ' > "$dir/list"
for words in "$dir/last" "--apply $dir/last $dir/list" "-x $dir/last" \
    "$dir/last $dir/missing" "--apply $dir/last $dir/list $dir/not"; do
    # several words
    # shellcheck disable=SC2086
    "$out/changes" $words > "$dir/got" 2> "$dir/message"
    status "changes $words" 2 $?
    same "changes $words"
    [ -s "$dir/message" ] || { echo "check.sh: no message"; failed=1; }
done
[ ! -e "$dir/not" ] || { echo "check.sh: a bad list was saved"; failed=1; }
"$out/changes" --help > "$dir/got"
status 'help of changes' 0 $?
grep -q '^usage: changes' "$dir/got" || { echo "check.sh: no usage"; failed=1; }

# No listing without a readable file; a clear message instead.
: > "$dir/want"
for file in "$dir/missing" "$dir"; do
    "$out/second" "$file" > "$dir/got" 2> "$dir/message"
    status "unreadable $file" 1 $?
    same "unreadable $file"
    [ -s "$dir/message" ] || { echo "check.sh: no message"; failed=1; }
done
"$out/second" --wrong > "$dir/got" 2> /dev/null
status 'wrong option' 2 $?
same 'wrong option'
"$out/second" one two > "$dir/got" 2> /dev/null
status 'two files' 2 $?
: > "$dir/want"
for words in '--account --tables' '--tables --account' '--why --tables' \
    '--account --why' '--tables --why --tables' '--save x --tables'; do
    # two words
    # shellcheck disable=SC2086
    "$out/second" $words "$dir/six" > "$dir/got" 2> /dev/null
    status "$words" 2 $?
    same "$words"
done
"$out/second" --save > "$dir/got" 2> /dev/null
status 'no file to save to' 2 $?
same 'no file to save to'
"$out/second" --help > "$dir/got"
status 'help' 0 $?
grep -q '^usage: second' "$dir/got" || { echo "check.sh: no usage"; failed=1; }

# The generator: the same bytes for a seed, wrong usage refused.
"$out/generate" 42 > "$dir/got" && "$out/generate" 42 > "$dir/want"
status 'generate' 0 $?
same 'generate'
"$out/generate" 1 nonsense > /dev/null 2>&1
status 'generate nonsense' 2 $?
"$out/generate" -1 > /dev/null 2>&1
status 'generate -1' 2 $?

[ "$failed" -eq 0 ] && echo "check.sh: all as expected"
exit "$failed"
