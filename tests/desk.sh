#!/bin/sh
# Holds ./desk against answers, words and exit statuses that are written here by hand: each command on the pages of drawings/, and
# small bad pages for each refusal; and against the tour of README.md. It runs what rt ci or rt run has built, in seconds, and proves
# nothing: where a program is missing or older than its crates, that is a difference. The exit status is 1 where anything differs.
set -u
cd "$(dirname "$0")/.." || exit 2

room=$(mktemp -d) || exit 2
trap 'rm -rf "$room"' EXIT
tried=0
failed=0

# An rt that proves nothing.
mkdir "$room/bin"
printf '#!/bin/sh\nexit 1\n' >"$room/bin/rt"
chmod +x "$room/bin/rt"
PATH=$room/bin:$PATH

same() { # WHAT FOUND DUE
    [ "$2" = "$3" ] && return
    failed=$((failed + 1))
    printf '%s\n  found %s\n  due   %s\n' "$1" "$2" "$3"
}

# Runs desk with the page on standard input: its exit status, and the first lines of what it prints and of what it says.
told() { # STATUS PRINTED SAID WORDS..
    status=$1 printed=$2 said=$3
    shift 3
    tried=$((tried + 1))
    ./desk "$@" <"$room/page" >"$room/out" 2>"$room/err"
    same "desk $*, status" "$?" "$status"
    same "desk $*, printed" "$(head -n 1 "$room/out")" "$printed"
    same "desk $*, said" "$(head -n 1 "$room/err")" "$said"
}

# The page, as it stands here.
text() { # FORMAT
    # shellcheck disable=SC2059
    printf "$1" >"$room/page"
}

# The page, by its instructions and its guesses.
page() { # INSTRUCTIONS GUESSES
    text "# constraints\n$1\n\n# guesses\n$2\n"
}

# All that a command prints of the page.
whole() { # COMMAND LINES..
    command=$1
    shift
    tried=$((tried + 1))
    same "desk $command, all that is printed" "$(./desk "$command" <"$room/page" 2>&1)" "$(printf '%s\n' "$@")"
}

# The page is refused.
refused() { # COMMAND ANSWER SAID
    told 1 "refused $2" "<stdin>:$3" "$1"
}

# ---- the drawings

text ''
told 0 'instructions 21 guesses 10 end 611' '' list drawings/bracket.txt
told 0 'passed points 4 circles 3 arcs 0 rows 14' '' check drawings/bracket.txt
told 0 'lowered points 4 circles 3 arcs 0 next 17' '' rows drawings/bracket.txt
told 0 'instructions 21 guesses 10 end 598' '' list drawings/renamed.txt
told 0 'passed points 4 circles 3 arcs 0 rows 14' '' check drawings/renamed.txt
told 0 'lowered points 4 circles 3 arcs 0 next 17' '' rows drawings/renamed.txt
told 0 'instructions 15 guesses 7 end 402' '' list drawings/plate.txt
told 0 'passed points 2 circles 1 arcs 1 rows 11' '' check drawings/plate.txt
told 0 'lowered points 2 circles 1 arcs 1 next 13' '' rows drawings/plate.txt
told 0 'instructions 20 guesses 12 end 566' '' list drawings/rail.txt
told 0 'passed points 4 circles 4 arcs 0 rows 12' '' check drawings/rail.txt
told 0 'lowered points 4 circles 4 arcs 0 next 20' '' rows drawings/rail.txt
for command in list check rows; do
    told 1 'refused 10 372' 'drawings/torn.txt:23:1: text is left over: this is no guess (10)' $command drawings/torn.txt
done
told 0 'instructions 15 guesses 6 end 372' '' read drawings/torn.txt

# Rows worked out by hand, those of the bracket by the names of two branches; and the whole of what is said of a page.
rows_are() { # PAGE ROWS
    tried=$((tried + 1))
    ./desk rows "drawings/$1.txt" | cmp -s - "tests/$2.rows" || same "desk rows drawings/$1.txt, all that is printed" differ equal
}
rows_are plate plate
rows_are bracket bracket
rows_are renamed bracket
./desk check drawings/torn.txt 2>&1 >"$room/out" | sed 1d >"$room/said"
printf 'corner.center roughly (10,\n^\n' | cmp -s - "$room/said" || same "the torn page's line and mark" differ equal

# ---- document 01's page, and the same with text left over

page 'point p\np.x = 0\ncircle c\nradius(c, 2)' 'p roughly (1, 2)\nc.center roughly (0, 0.5)\nc.radius roughly 1'
whole list 'instructions 4 guesses 3 end 125' '1 p' '4 p x 0000000000000000' '2 c' '15 c 4000000000000000' '24 p 3ff0000000000000 4000000000000000' \
    '24 c.center 0000000000000000 3fe0000000000000' '25 c.radius 3ff0000000000000'
whole check 'passed points 1 circles 1 arcs 0 rows 2'
whole rows 'lowered points 1 circles 1 arcs 0 next 5' 'slot 0 3ff0000000000000' 'slot 1 4000000000000000' 'slot 2 0000000000000000' \
    'slot 3 3fe0000000000000' 'slot 4 3ff0000000000000' 'row 4 0 x 0000000000000000' 'row 15 2 3 4 4000000000000000'
printf 'c.radius rough 1\n' >>"$room/page"
for command in list check rows; do
    refused $command '10 125' '11:1: text is left over: this is no guess (10)'
done
whole read 'instructions 4 guesses 3 end 125' '1 p' '4 p x 0000000000000000' '2 c' '15 c 4000000000000000' '24 p 3ff0000000000000 4000000000000000' \
    '24 c.center 0000000000000000 3fe0000000000000' '25 c.radius 3ff0000000000000'
text '# constraints\npoint p\n\n# guesses\np roughly (0, 1)\nq'
for word in LIST CHECK ROWS CASE; do
    printf '%s 51\n' "$word"
    cat "$room/page"
    echo
done >"$room/batch"
mv "$room/batch" "$room/page"
whole replay 'refused 10 50' . 'refused 10 50' . 'refused 10 50' . 'instructions 1 guesses 1 end 50' '1 p' '24 p 0000000000000000 3ff0000000000000' .

# The longest answer that was found: 899 pairs of coordinates, one of them for a label of 25541 letters, which stands in two records.
awk 'BEGIN {
    print "# constraints"
    for (i = 0; i < 25541; i++) printf "a"
    for (i = 0; i < 899; i++) printf "%s=(0,0)\n", i ? "a" : ""
    printf "\n# guesses\na roughly 0"
}' >"$room/page"
told 0 'instructions 1798 guesses 1 end 32768' '' list
same 'desk list, bytes of the longest answer' "$(wc -c <"$room/out")" 92494

# ---- use

text ''
told 2 '' 'desk COMMAND [FILE]: reads a page, from FILE or from standard input'
told 2 '' 'desk COMMAND [FILE]: reads a page, from FILE or from standard input' mend
told 2 '' 'desk COMMAND [FILE]: reads a page, from FILE or from standard input' list drawings/plate.txt drawings/rail.txt
told 2 '' 'desk: cannot read drawings/none.txt' list drawings/none.txt
told 2 '' 'desk: cannot read drawings' list drawings
told 0 'desk COMMAND [FILE]: reads a page, from FILE or from standard input' '' help
same 'desk help, one screen' "$(./desk help | awk 'length($0) > 80 { wide = 1 } END { print (NR <= 24 && !wide) }')" 1
page 'point p' 'p roughly (0, 0)'
told 0 'instructions 1 guesses 1 end 50' '' list -

# ---- batches

text 'CHECK 49\n# constraints\npoint p\n\n# guesses\np roughly (0, 0)\nLIST 1\nx\n'
told 0 'passed points 1 circles 0 arcs 0 rows 0' '' replay
text 'LIST 1\nx\nLIST 2\nx\n'
told 1 'refused 3 0' '<stdin>: bad batch: no whole block follows the first 1' replay

# ---- refusals of reading

awk 'BEGIN { for (i = 0; i < 32769; i++) printf "#" }' >"$room/page"
refused list '1 0' '1:1: the page has over 32768 bytes (1)'
page 'point p' 'p roughly (0, 0) \303\251'
refused list '2 50' '5:18: this byte is 128 or more, and a page is plain ASCII (2)'
text ''
refused list '3 0' '1:1: the page does not begin with the line # constraints (3)'
text '# constraints\r\npoint p\n'
refused list '3 0' '1:1: this heading does not end with its word and a new line (3)'
page ' pont p' 'p roughly (0, 0)'
refused list '4 14' '2:1: this line is no instruction (4)'
page 'pointer = (1, 2)' 'p roughly (0, 0)'
refused list '5 21' '2:8: the instruction ends here, and the line goes on (5)'
page 'point p ' 'p roughly (0, 0)'
refused list '5 21' '2:8: the instruction ends here, and the line goes on (5)'
text '# constraints\npoint p'
refused list '5 21' '2:8: the page ends here, without its guesses (5)'
text '# constraints\npoint p\n# guesses\np roughly (0, 0)\n'
refused list '5 21' '2:8: an empty line is missing after this one (5)'
page 'point p\nline(p, p )' 'p roughly (0, 0)'
refused list '5 21' '2:8: line 3 is no instruction, and not empty (5)'
page 'point p\n' 'p roughly (0, 0)'
refused list '6 23' '4:1: the line # guesses is missing here (6)'
text '# constraints\npoint p\n\n# guesses \np roughly (0, 0)\n'
refused list '6 23' '4:1: this heading does not end with its word and a new line (6)'
page 'point p' 'p roughly'
refused list '7 33' '5:1: this line is no guess (7)'
page 'point p\np.x = 1e23' 'p roughly (0, 0)'
refused list '8 28' '3:7: this number is not carried: at most 15 digits, and a power of ten from -22 to 22 (8)'
page 'lines_at_angle(p, p, p, p, 1234567890123456deg)' 'p roughly (0, 0)'
refused list '8 41' '2:28: this number is not carried: at most 15 digits, and a power of ten from -22 to 22 (8)'
page 'point p' 'p roughly (0, +1.e)'
refused list '8 47' '5:15: this number is not carried: digits are missing after its e (8)'
page 'point p' 'p roughly -inf'
refused list '8 43' '5:11: this is no number that is carried (8)'
page 'radius(c, sqrt(sqrt(sqrt(sqrt(sqrt(sqrt(sqrt(sqrt(sqrt(2))))))))))' 'p roughly (0, 0)'
refused list '9 64' '2:51: this sqrt( is the ninth, and at most eight stand inside one another (9)'
page 'point p' 'p roughly (0, 0) p'
refused list '10 50' '5:18: text is left over: the guess ends before it (10)'
page 'point p' 'p roughly (0, 0)\n'
refused list '10 50' '6:1: text is left over: the guesses end before this empty line (10)'
page 'point p' 'p roughly (0, 0)\n p rough (0, 0)'
refused list '10 51' '6:2: text is left over: this is no guess (10)'
awk 'BEGIN { print "# constraints"; for (i = 0; i < 1800; i++) print "point p"; print "\n# guesses\np roughly 1" }' >"$room/page"
refused read '11 0' '1:1: the page has over 1800 records (11)'

# ---- refusals of the check

page 'point p\np = (1, 2)\n  circle\tp' 'p roughly (0, 0)'
refused check '31 3' '4:10: p is declared already, in line 2 (31)'
page 'point p\np = (1, 2)\nvertical(p, q)' 'p roughly (0, 0)'
refused check '32 3' '4:13: q is not declared as a point (32)'
page 'circle c\nc = (1, 2)' 'c.center roughly (0, 0)'
refused check '32 1' '3:1: c is a circle, not a point (32)'
page 'point p\n p.x = (1, 2)' 'p roughly (0, 0)'
refused check '32 1' '3:2: p.x is not the center of a circle or an arc (32)'
page 'point p\np.center.x = 1' 'p roughly (0, 0)'
refused check '32 1' '3:1: p is a point, not a circle or an arc (32)'
page 'point p\nq.center.x = 1' 'p roughly (0, 0)'
refused check '32 1' '3:1: q is not declared as a circle or an arc (32)'
page 'q.y = 1\npoint p' 'p roughly (0, 0)'
refused check '32 0' '2:1: q is not declared as a point (32)'
page 'point p\narc a\ntangent ( p , p , a)' 'p roughly (0, 0)'
refused check '32 2' '4:19: a is an arc, not a circle (32)'
page 'point p\npoint_arc_coincident(p, p)' 'p roughly (0, 0)'
refused check '32 1' '3:25: p is a point, not an arc (32)'
page 'point p\nis_arc(q)' 'p roughly (0, 0)'
refused check '32 1' '3:8: q is not declared as an arc (32)'
page 'point 1\ndistance(1, 2, 1)' '1 roughly (0, 0)'
refused check '32 1' '3:13: 2 is not declared as a point (32)'
page 'point p' 'p roughly (0, 0)\nq roughly (0, 0)'
refused check '33 2' '6:1: q is not declared as a point (33)'
page 'circle c' 'c roughly (0, 0)'
refused check '33 1' '5:1: c is a circle, not a point (33)'
page 'point p' 'q.radius roughly 1'
refused check '33 1' '5:1: q.radius is no part of a declared shape (33)'
page 'point p' ' p roughly 1'
refused check '33 1' '5:2: p wants a pair (33)'
page 'circle c' 'c.radius roughly (1, 2)'
refused check '33 1' '5:1: c.radius wants a number (33)'
page 'point p\np = (1, 2)' 'p roughly (0, 0)\np roughly (0, 0)'
refused check '34 4' '7:1: p is guessed already, in line 6 (34)'
page 'point p\ncircle c' 'p roughly (0, 0)\nc.center roughly (0, 0)'
refused check '35 1' '3:8: c.radius has no guess (35)'
page 'arc a' 'a.a roughly (0, 0)\na.center roughly (0, 0)'
refused rows '35 0' '2:5: a.b has no guess (35)'
page 'point p\npoint q' 'p roughly (0, 0)'
refused rows '35 1' '3:7: q has no guess (35)'

# ---- the tour: each command of README.md's indented lines that begin with $, and what stands below it

awk -v to="$room/tour" '
    /^    [$] / { n++; print substr($0, 7) >(to n); in_it = 1; next }
    /^    / && in_it { print substr($0, 5) >(to n ".due"); next }
    { in_it = 0 }' README.md
n=0
while n=$((n + 1)) && [ -e "$room/tour$n" ]; do
    tried=$((tried + 1))
    sh "$room/tour$n" >"$room/out" 2>&1
    cmp -s "$room/out" "$room/tour$n.due" || same "README.md: $(cat "$room/tour$n")" "$(cat "$room/out")" "$(cat "$room/tour$n.due")"
done
[ "$n" -gt 1 ] || same 'README.md, commands of its tour' none some

printf '%d runs, %d differences\n' "$tried" "$failed"
[ "$failed" -eq 0 ]
