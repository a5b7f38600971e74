# The example host on the example systems.
#
#     sh example.sh PROGRAM FOLDER
#
# Without words it gives, byte for byte, the answers that evidence/reference.py gave (*.answer); with words or a window
# the same but for the passes and the counts, whatever they are, and the bill adds up, as do the entries multiplied. With
# random scales f is another, and x the same where A is regular. What is no system is refused, by number and exit status.
set -eu
program=$1 examples=$2

fail() {
    echo "example: FAILED: $1" >&2
    exit 1
}

# The kind, the degree, f and the vector, without the passes and counts
verdict() {
    "$program" "$@" 2>/dev/null | grep -v '^pass' | cut -f 1-3
}

# The kind and the vector alone
vector() {
    verdict "$@" | grep -v '^[cf]' | sed '1s/\t[0-9]*$//'
}

# A line for each pass, and their sum with the close is what the first line says; each multiplied as many entries as
# the system's text ($1) has
adds_up() {
    entries=$(grep -c '^a' "$1" || true)
    shift
    "$program" "$@" 2>/dev/null | awk -F '\t' -v entries="$entries" '
        $1 == "answer" { passes = $4; applications = $5; multiplied = $6 }
        $1 == "pass" && $2 == found + 1 { found++; sum += $5 }
        $1 == "close" { closed++; sum += $2 }
        END { exit !(closed == 1 && found == passes && sum == applications && sum * entries == multiplied) }'
}

refused() {
    set +e
    got=$(printf "$2" | "$program" 2>/dev/null)
    status=$?
    set -e
    [ "$got" = "$(printf 'refused\t%s' "$1")" ] && [ "$status" -eq 1 ] || fail "refusal $1: $got, status $status"
}

for answer in "$examples"/*.answer; do
    got=$("$program" -r 0 "${answer%.answer}.system" 2>/dev/null)
    [ "$got" = "$(cat "$answer")" ] || fail "$answer"
done
for system in "$examples"/*.system; do
    without=$(verdict -r 0 "$system")
    [ -n "$without" ] || fail "$system is not answered"
    for vectors in 1 1 2 64; do
        [ "$(verdict -r "$vectors" "$system")" = "$without" ] || fail "$system with $vectors vectors of words"
        adds_up "$system" -r "$vectors" "$system" || fail "the bill of $system with $vectors vectors of words"
    done
    for window in 0 1 2 64; do
        [ "$(verdict -w "$window" -r 1 "$system")" = "$without" ] || fail "$system with a window of $window"
        adds_up "$system" -r 0 -w "$window" "$system" || fail "the bill of $system with a window of $window"
    done
    [ "$(verdict -r 1 <"$system")" = "$without" ] || fail "$system from standard input"
    for window in 0 2; do
        adds_up "$system" -s -w "$window" "$system" || fail "the bill of $system with random scales"
    done
done
for name in first restart empty large; do
    system=$examples/$name.system
    [ "$(vector -s -r 2 "$system")" = "$(vector -r 0 "$system")" ] || fail "$system with random scales"
done

# diag(2,3) with the scales 2, 6, which is 4 times the unit matrix; by the text's scales and without them
head='system\t7\t2\t2\na\t1\t1\t2\na\t2\t2\t3\n' tail='b\t1\t1\nb\t2\t1\nend\n'
got=$(printf "$head"'s\t1\t2\ns\t2\t6\n'"$tail" | "$program" -r 0 2>/dev/null)
want=$(printf 'answer\tsolved\t1\t1\t4\t8\npass\t1\t2\t1\t4\nclose\t0\nf\t0\t3\nf\t1\t1\nx\t1\t4\nx\t2\t5\nend')
[ "$got" = "$want" ] || fail "a text with scales: $got"
got=$(printf "$head$tail" | vector -r 0)
[ "$got" = "$(printf 'answer\tsolved\nx\t1\t4\nx\t2\t5\nend')" ] || fail "the same without scales: $got"
said=$(printf "$head"'s\t1\t2\ns\t2\t6\n'"$tail" | "$program" 2>&1 >/dev/null)
case $said in
*"the text's scales; Ax = b"*) ;;
*) fail "the summary with scales: $said" ;;
esac

set +e
"$program" -w 65 "$examples/first.system" >/dev/null 2>&1
[ $? -eq 2 ] || fail "a window of 65 is bad usage"
"$program" -s 2 "$examples/first.system" >/dev/null 2>&1
[ $? -eq 2 ] || fail "-s takes no number"
set -e
refused 2 ''
refused 3 'system\t2147483646\t1\t0\nend\n'
refused 4 'system\t7\t4097\t0\nend\n'
refused 5 'system\t7\t0\t1\nend\n'
refused 6 'system\t7\t0\t0\nb\t1\t1\nend\n'
refused 7 'system\t7\t1\t1\na\t1\t1\t7\nend\n'
refused 2 'system\t7\t1\t0\nb\t1\t1\ns\t1\t2\nend\n'
refused 5 'system\t7\t2\t0\ns\t1\t2\nend\n'
refused 6 'system\t7\t1\t0\ns\t1\t1\nend\n'
refused 7 'system\t7\t1\t0\ns\t1\t7\nend\n'
echo "example: passed"
