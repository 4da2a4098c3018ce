#!/bin/sh
# Builds the programs in C over the archive. Holds `console` to the number of each sample and of damaged copies, `restore` to the samples whose
# table is the solver's and to what `shelf` says of a hard show and of altered ones, `play` to runs and refusals, `watch` and the program `turns` to
# each other and to stored turns, the program `walk` to chains of shows, `export` and the program `hoa` to each other and to a reader of the Hanoi
# format, which is tried on its own too, and all of them and the programs for the shell to the refusals of badly joined copies and to shows with an
# empty set. Looks for divide instructions in the archive.
set -eu
cd "$(dirname "$0")/.."
work=$(mktemp -d)
trap 'rm -rf "$work"' EXIT
# with the argument `built` what `rt ci` has just made is taken as it is, and only what is missing is made
clients/archives.sh "$@" >"$work/log" 2>&1 || { tail -n 20 "$work/log"; exit 1; }
for name in shelf solve turns play hoa walk; do
    if [ "${1-}" != built ] || [ ! -e "crates/$name/out/$name" ]; then
        (cd "crates/$name" && rt run </dev/null) >"$work/log" 2>&1 || { tail -n 20 "$work/log"; exit 1; }
    fi
done
flags='-std=c11 -O2 -Wall -Wextra -Werror'
cc $flags -o "$work/console" clients/console.c target/staticlib/libconsole.a
cc $flags -o "$work/restore" clients/restore.c target/staticlib/librestore.a target/staticlib/libconsole.a
cc $flags -o "$work/playback" clients/playback.c target/staticlib/libplayback.a
cc $flags -o "$work/watch" clients/watch.c target/staticlib/libwatch.a target/staticlib/librestore.a
cc $flags -o "$work/export" clients/export.c target/staticlib/libexport.a
cc $flags -o "$work/hoa_reader" clients/hoa_reader.c

failed=0
tried=0
# same WHAT EXPECTED SAID
same() {
    tried=$((tried + 1))
    [ "$2" = "$3" ] || { echo "$1: expected '$2', and it says '$3'"; failed=1; }
}
# expect NUMBER FILE
expect() {
    same "console $2" "$1" "$("$work/console" "$2")"
}
# restores FILE NUMBER SAMPLE: restored, the file is the sample and has the number
restores() {
    same "restore $1" "$2" "$("$work/restore" "$1" "$work/new")"
    cmp -s "$work/new" "$3" || { echo "restore $1: not $3"; failed=1; }
}
# plays LINE FILE STEM.. / LOOP..
plays() {
    line=$1
    shift
    same "play $*" "$line" "$("$work/playback" "$@")"
}
# watches LINE FILE ..: the client, which finds what it lent as it should be
watches() {
    line=$1
    shift
    same "watch $*" "$line" "$("$work/watch" "$@")"
}
# exports LINE FILE MACHINE [ROOM]: the client, likewise
exports() {
    line=$1
    shift
    same "export $*" "$line" "$("$work/export" "$@")"
}
# from NAME SAMPLE: a copy to damage
from() {
    file=$work/$1
    cat "samples/$2.dom" >"$file"
}
# byte OFFSET VALUE: changes one byte of the copy
byte() {
    printf "\\$(printf %03o "$2")" | dd of="$file" bs=1 seek="$1" conv=notrunc 2>/dev/null
}
# bytes OFFSET COUNT VALUE: changes so many bytes of the copy
bytes() {
    head -c "$2" /dev/zero | tr '\000' "\\$(printf %03o "$3")" | dd of="$file" bs=1 seek="$1" conv=notrunc 2>/dev/null
}
# block PLACE SAMPLE NUMBER: puts a block of a sample at a place of the copy
block() {
    dd if="samples/$2.dom" of="$file" bs=512 seek="$1" skip="$3" count=1 conv=notrunc 2>/dev/null
}
# seal [PLACE]: makes the check of a block right again, of block 0 unless given
seal() {
    at=$((512 * ${1:-0}))
    sum=$(od -An -v -tu1 -j "$at" -N510 "$file" | awk '{ for (i = 1; i <= NF; i++) { n++; s = (s + n * $i) % 65521 } } END { print s }')
    byte $((at + 510)) $((sum % 256))
    byte $((at + 511)) $((sum / 256))
}

# divides NUMBER FILE FUNCTION: how many instructions of an object or an archive divide, or call a routine of the compiler that does; FUNCTION
# is in it, so that a file which is not disassembled is told from one that has none
divides() {
    objdump -d -r --no-show-raw-insn "$2" >"$work/code" || { echo "$2: not disassembled"; failed=1; }
    found=$(awk -v name="<$3>:" '
        $2 == name { seen = 1 }
        $1 ~ /:$/ && ($2 ~ /^[a-z]*div|^rem/ || $2 ~ /^R_/ && $3 ~ /^__[a-z_]*(div|mod)/) { n++ }
        END { if (seen) print n + 0; else print "not seen" }' "$work/code")
    [ "$found" = "$1" ] || { echo "$2, divide instructions: expected $1, and found $found"; failed=1; }
}

# a division and a call of a routine that divides are found; the archive, under either name, has neither
cc -O2 -x c -c -o "$work/quotient.o" - <<'END'
unsigned __udivsi3(unsigned x, unsigned y);
unsigned quotient(unsigned x, unsigned y) { return x / y; }
unsigned called(unsigned x, unsigned y) { return __udivsi3(x, y) + 1; }
END
divides 2 "$work/quotient.o" quotient
divides 0 target/staticlib/libconsole.a console_answer
divides 0 target/staticlib/libplayback.a play_file

# the shelf examples, a large show, shows with a hidden mask, one in which the player stays, and shows without a table
for n in 01 03 05 06 10 12; do expect 100 "samples/case-$n.dom"; done
for n in 02 04 09 11; do expect 200 "samples/case-$n.dom"; done
for n in 07 08; do expect 12 "samples/case-$n.dom"; done
for name in large lamp choice stay chain-1 chain-2 chain-3 chain-2-bit chain-3-mask; do expect 100 "samples/$name.dom"; done
for name in lost hard falling; do expect 101 "samples/$name.dom"; done

# each refusal of the reader
: >"$work/empty"; expect 2 "$work/empty"
head -c 511 samples/case-05.dom >"$work/short"; expect 2 "$work/short"
from check case-05; byte 100 1; expect 3 "$file"
from number case-05; byte 0 1; seal; expect 19 "$file"
from letters case-05; byte 2 100; seal; expect 4 "$file"
from first-zero case-05; byte 12 1; seal; expect 4 "$file"
from last-zero case-05; byte 17 1; seal; expect 4 "$file"
from table-byte case-05; byte 11 2; seal; expect 4 "$file"
from no-states case-05; byte 6 0; seal; expect 5 "$file"
from eight-sets case-05; byte 9 8; seal; expect 5 "$file"
from long case-05; head -c 512 /dev/zero >>"$file"; expect 6 "$file"
head -c 58880 samples/large.dom >"$work/cut"; expect 6 "$work/cut"
from later large; byte 2000 77; expect 7 "$file"
from padding case-05; byte 509 1; seal; expect 8 "$file"
from beyond case-05; byte 19 3; seal; expect 9 "$file"
from no-start case-05; byte 19 0; seal; expect 10 "$file"
from stuck case-05; byte 61 0; seal; expect 11 "$file"

# badly joined copies, beside damaged ones
# stopped NUMBER PLACE FOUND: by the console the number, by the other calls and by the programs the place and the number found too
stopped() {
    expect "$1" "$file"
    line="refused $1 $2 $3 0"
    same "shelf $file" "$line" "$(crates/shelf/out/shelf <"$file")"
    same "restore $file" "$line" "$("$work/restore" "$file" "$work/none")"
    plays "$line" "$file" / 0
    same "solve $file" "$line" "$(crates/solve/out/solve <"$file" 2>&1)"
    same "program play $file" "$line" "$(crates/play/out/play / 0 <"$file")"
    same "turns $file" "$line" "$(crates/turns/out/turns <"$file")"
    watches "$line" "$file"
    watches "$line" "$file" 28672
    same "hoa $file" "$line" "$(crates/hoa/out/hoa <"$file")"
    exports "$line" "$file" 0
    same "walk $file" "1 $line" "$(crates/walk/out/walk "$file")"
}
from exchanged large; block 2 large 5; block 5 large 2; stopped 19 2 5
from first-last large; block 0 large 115; block 115 large 0; stopped 19 0 115
from doubled large; for i in $(seq 4 115); do block "$i" large $((i - 1)); done; stopped 19 4 3
from foreign large; block 7 case-05 0; stopped 19 7 0
from zeros large; dd if=/dev/zero of="$file" bs=512 seek=7 count=1 conv=notrunc 2>/dev/null; stopped 19 7 0
from high case-05; byte 0 255; byte 1 255; seal; stopped 19 0 65535
# the number is looked at right after the check of the same block, and before the letters and the counts
from both large; block 1 large 9; byte 1200 77; stopped 19 1 9
from both-other large; byte 700 77; block 2 large 9; stopped 7 1 0
from one-block large; block 3 large 9; byte 1600 77; stopped 7 3 0
from first-block large; byte 0 1; stopped 3 0 0
from other-letters case-05; byte 0 1; byte 2 100; byte 6 0; seal; stopped 19 0 1
# too long by a block that is there twice; and another show's first block, whose number is right
from too-long large; tail -c 512 samples/large.dom >>"$file"; stopped 6 0 0
from other-show large; block 0 case-05 0; stopped 6 0 0

# the first block tells the size: a show that is larger than the memory is not read
same 'console large 4096' 'larger than 4096: 59392' "$("$work/console" samples/large.dom 4096)"
same 'console large 59391' 'larger than 59391: 59392' "$("$work/console" samples/large.dom 59391)"
same 'console large 59392' 100 "$("$work/console" samples/large.dom 59392)"
head -c 512 samples/large.dom >"$work/front"
same 'console front 4096' 'larger than 4096: 59392' "$("$work/console" "$work/front" 4096)"
# and no more than its first block: the other 115 are left in the pipe
same 'console pipe 4096' 58880 "$(cat samples/large.dom | { "$work/console" /dev/stdin 4096 >"$work/log"; wc -c; } | tr -d ' ')"
from odd case-05; printf x >>"$file"; expect 2 "$file"
same 'console letters 0' 4 "$("$work/console" "$work/letters" 0)"
same 'console number 0' 19 "$("$work/console" "$work/number" 0)"

# the hidden mask may be any byte; what it hides, and what not
for mask in 1 128 255; do from mask case-05; byte 10 $mask; seal; expect 100 "$file"; done
from lamp-compared lamp; byte 10 251; seal; expect 12 "$file"
from all-hidden lamp; byte 10 255; seal; expect 100 "$file"
from four-with-1 case-04; byte 10 1; seal; expect 200 "$file"
from four-with-2 case-04; byte 10 2; seal; expect 200 "$file"
from lamp-shown lamp; byte 10 0; seal; expect 12 "$file"
from choice-shown choice; byte 10 0; seal; expect 12 "$file"

# another entry, and a start state of the rig that lacks a partner
from entry case-05; byte 77 3; seal; expect 12 "$file"
from lacking large; byte 82 8; seal; expect 203 "$file"

# a lost table and other tables, and shows that have the solver's table already
for name in lost case-06 case-07 case-08 case-09; do restores "samples/$name.dom" 100 samples/case-05.dom; done
for n in 01 05 10 12; do restores "samples/case-$n.dom" 100 "samples/case-$n.dom"; done
for n in 04 11; do restores "samples/case-$n.dom" 200 "samples/case-$n.dom"; done
for name in large lamp choice stay chain-1 chain-2 chain-3 chain-2-bit chain-3-mask; do restores "samples/$name.dom" 100 "samples/$name.dom"; done
# restored NUMBER LINE NAME: the copy is restored with this number, and then gets this line
restored() {
    same "restore $3" "$1" "$("$work/restore" "$work/$3" "$work/$3.new")"
    same "shelf $3" "$2" "$(crates/shelf/out/shelf <"$work/$3.new")"
}
# a hidden mask is kept, and decides what the table is
restored 100 'carried 1' four-with-1
restored 200 'not carried 0 0' four-with-2
restored 200 'not carried 0 0' lamp-shown
restored 100 'carried 2' choice-shown
# a show that is hard to solve: its number, its count of entries, and its table once more
same 'restore hard' 200 "$("$work/restore" samples/hard.dom "$work/hard")"
same 'shelf hard' 'not carried 0 539' "$(crates/shelf/out/shelf <"$work/hard")"
restores "$work/hard" 200 "$work/hard"
same 'restore later' 'refused 7 3 0 0' "$("$work/restore" "$work/later" "$work/none")"
same 'restore stuck' 'refused 11 1 1 0' "$("$work/restore" "$work/stuck" "$work/none")"
from longer large; head -c 513 /dev/zero >>"$file"
same 'restore longer' 'refused 2 0 0 0' "$("$work/restore" "$file" "$work/none")"
# a set without a state: the file is read, checked and played, and not solved
# unsolved LINE SHELF PLAY FILE
unsolved() {
    same "restore $4" "$1" "$("$work/restore" "$4" "$work/none")"
    same "solve $4" "$1" "$(crates/solve/out/solve <"$4" 2>&1 >"$work/out")"
    [ ! -s "$work/out" ] || { echo "solve $4: a refusal wrote a file"; failed=1; }
    same "shelf $4" "$2" "$(crates/shelf/out/shelf <"$4")"
    plays "$3" "$4" / 0
    same "turns $4" "$1" "$(crates/turns/out/turns <"$4")"
    same "walk $4" "1 $2" "$(crates/walk/out/walk "$4")"
    watches "$1" "$4"
    watches "$1" "$4" 28672
    watches "$1" "$4" 9 0 0
}
unsolved 'refused 21 1 1 0' 'not carried 0 0' 'refused 16 0 0 0' samples/case-02.dom
unsolved 'refused 21 0 1 0' 'carried 1' 'refused 15 1 0 0' samples/case-03.dom
# of two machines the rig is told; the reader's refusals come before
from rig-and-score case-05; byte 35 0; byte 69 0; seal
unsolved 'refused 21 0 1 0' 'refused 12 1 0 1' 'refused 12 1 0 1' "$file"
from score-set case-05; byte 69 0; seal
unsolved 'refused 21 1 1 0' 'refused 12 1 0 1' 'refused 12 1 0 1' "$file"
from set-and-stuck case-05; byte 35 0; byte 61 0; seal
unsolved 'refused 11 1 1 0' 'refused 11 1 1 0' 'refused 11 1 1 0' "$file"
[ ! -e "$work/none" ] || { echo 'restore: a refusal wrote a file'; failed=1; }

# case 10, a longer run, plays with a choice, and each refusal of the player; a show without a table
plays 'run 0 / 1' samples/case-10.dom / 0
plays 'run 0 / 1 1 1 1 1 1 1' samples/large.dom 0 / 1
plays 'run / 0 1' samples/choice.dom / 0 1
plays 'run / 0 2' "$work/choice-shown.new" / 0 1
plays 'refused 12 1 0 1' "$work/choice-shown" / 0 1
plays 'run 0 / 1' samples/stay.dom / 0
# the set of the score's state 0 alone: the entries are 0 and 2, and the play goes back for the lower one
from back stay; byte 69 1; seal
restored 100 'carried 2' back
plays 'run / 0 1' "$work/back.new" / 0
plays 'refused 12 1 0 0' samples/case-07.dom / 0
plays 'refused 13 0 0 0' samples/case-10.dom 0 /
plays 'refused 14 1 0 0' samples/case-10.dom 0 / 1
plays 'refused 15 1 0 0' samples/large.dom / 0
plays 'refused 16 0 0 0' samples/case-11.dom 0 1 / 2
plays 'refused 7 3 0 0' "$work/later" / 0
plays 'no table' samples/lost.dom / 0

# the solver by turns: the program's lines, which the client gets by looking every pair up
# turned LINES FILE
turned() {
    same "turns $2" "$1" "$(crates/turns/out/turns <"$2")"
    watches "$1
solve_file's table" "$2"
}
turned "$(cat crates/turns/stdout)" samples/falling.dom
turned 'turn 1 3
turn 2 2
turn 3 2
finished 3' samples/case-11.dom
turned 'turn 1 0
finished 1' samples/case-04.dom
for name in lost case-05 case-07; do turned 'turn 1 2
finished 1' "samples/$name.dom"; done
turned 'turn 1 512 512 512 512 512 512 512
finished 1' samples/large.dom
# 37 turns: how many lines, the first, the last two and a checksum
crates/turns/out/turns <samples/hard.dom >"$work/turns"
same 'turns hard, lines' 38 "$(wc -l <"$work/turns" | tr -d ' ')"
same 'turns hard, first' 'turn 1 112 112 112 112 112 112 112' "$(head -n 1 "$work/turns")"
same 'turns hard, last' 'turn 37 77 77 77 77 77 77 77
finished 37' "$(tail -n 2 "$work/turns")"
same 'turns hard, sum' '2396281974 1167' "$(cksum <"$work/turns")"
turned "$(cat "$work/turns")" samples/hard.dom
# a pair that turn 3 strikes out, one that turn 5 does, and one that stays, in between and after the finish
watches 'still in' samples/falling.dom 0 1 0 2
watches 'still in' samples/falling.dom 2 1 0 2
for turns in 3 6 9; do watches 'struck out' samples/falling.dom $turns 1 0 2; done
watches 'still in' samples/falling.dom 4 1 0 3
watches 'struck out' samples/falling.dom 5 1 0 3
watches 'still in' samples/falling.dom 9 2 1 0
# full masks have stray bits, which count as struck out
watches 'turn 1 10 12' samples/falling.dom 28672
watches 'struck out' samples/case-04.dom 1 0 0
watches 'still in' samples/case-05.dom 1 0 0
# 1 before the file is looked at; then the reader's refusals, 21 and last 20
watches 'refused 1 0 0 0' samples/falling.dom 28671
watches 'refused 1 0 0 0' "$work/later" 0
watches 'refused 7 3 0 0' "$work/later" 28672
watches 'refused 7 3 0 0' "$work/later" 9 9 9
for spot in '0 0 0' '3 0 0' '1 3 0' '2 0 4' '18446744073709551615 0 0' '1 18446744073709551615 0' '1 0 64'; do
    watches 'refused 20 0 0 0' samples/falling.dom 0 $spot
done
same 'turns longer' 'refused 6 0 0 0' "$(crates/turns/out/turns <"$work/longer")"
same 'turns empty' 'refused 2 0 0 0' "$(crates/turns/out/turns <"$work/empty")"

# a walk along a chain of files: a line for each, and the line of the end again for those after it
# walks LINES FILE..
walks() {
    lines=$1
    shift
    same "walk $*" "$lines" "$(crates/walk/out/walk "$@")"
}
one=samples/chain-1.dom two=samples/chain-2.dom three=samples/chain-3.dom
for n in 1 2 3; do same "walk's chain-$n" '' "$(cmp "crates/walk/data/chain-$n.dom" "samples/chain-$n.dom" 2>&1)"; done
walks '1 carried 3
2 carried 3
3 carried 4' $one $two $three
walks 'usage: walk first.dom second.dom ..'
# a score that differs in one bit from the next rig, another hidden mask, files out of order; the first file has nothing before it
walks '1 carried 3
2 refused 25 0 0 0
2 refused 25 0 0 0' $one samples/chain-2-bit.dom $three
walks '1 carried 3
2 carried 3
3 refused 25 0 0 0' $one $two samples/chain-3-mask.dom
walks '1 carried 3
2 refused 25 0 0 0
2 refused 25 0 0 0' $one $three $two
walks '1 carried 4' samples/chain-3-mask.dom
# each field of the rig is compared: the number of sets, an observation in a hidden bit alone, start states, successors, a set; the number of states
# cannot be all that differs
file=$work/walk-sets
{ head -c 61 $two; head -c 8 /dev/zero; tail -c +62 $two | head -c 443; } >"$file"; byte 8 2; seal
same "shelf $file" 'carried 3' "$(crates/shelf/out/shelf <"$file")"
walks '1 carried 3
2 refused 25 0 0 0' $one "$file"
for field in 'observation 20 0' 'starts 21 3' 'successors 29 3' 'set 53 6'; do
    set -- $field
    from "walk-$1" chain-2; byte "$2" "$3"; seal
    walks '1 carried 3
2 refused 25 0 0 0' $one "$file"
done
# the reader's refusals come before 25, and 25 before a missing table and before the check; 3, 11, a missing table, 12 and NotCarried end the walk
from walk-damaged chain-2-bit; byte 100 1; walks '1 carried 3
2 refused 3 0 0 0
2 refused 3 0 0 0' $one "$file" $two
from walk-stuck chain-2-bit; byte 45 0; seal; walks '1 carried 3
2 refused 11 0 2 0' $one "$file"
from walk-bare chain-2; byte 11 0; bytes 95 12 0; seal; walks '1 carried 3
2 no table
2 no table' $one "$file" $three
from walk-bare-bit chain-2-bit; byte 11 0; bytes 95 12 0; seal; walks '1 carried 3
2 refused 25 0 0 0' $one "$file"
from walk-entry chain-2; byte 95 9; seal; walks '1 carried 3
2 refused 12 1 0 0
2 refused 12 1 0 0' $one "$file" $two
from walk-entry-bit chain-2-bit; byte 95 9; seal; walks '1 carried 3
2 refused 25 0 0 0' $one "$file"
from walk-blank chain-2; bytes 95 12 255; seal; walks '1 carried 3
2 not carried 0 0
2 not carried 0 0' $one "$file" $three
walks '1 not carried 0 2
1 not carried 0 2' samples/case-11.dom samples/lost.dom
# sixteen files and no more, whatever the seventeenth is; a file that cannot be opened, also for the length of its name, is an empty one; of a longer
# file the first 59,904 bytes are taken
sixteen=$(for i in $(seq 16); do echo samples/case-01.dom; done)
carried=$(for i in $(seq 16); do echo "$i carried 1"; done)
walks "$carried" $sixteen
for last in samples/case-01.dom "$work/walk-damaged" "$work/absent"; do walks "$carried
17 refused 26 0 0 0
17 refused 26 0 0 0" $sixteen "$last" samples/case-01.dom; done
walks '1 refused 2 0 0 0
1 refused 2 0 0 0' "$work/absent" $one
walks '1 refused 2 0 0 0' "$work/empty"
walks '1 refused 6 0 0 0' "$work/longer"
walks '1 refused 2 0 0 0' "$(head -c 5000 /dev/zero | tr '\000' a)"

# the Hanoi format: the program's text is read back as the machines of the show, and is that of the two calls, one after the other
# exported FILE
exported() {
    crates/hoa/out/hoa <"$1" >"$work/both"
    same "hoa $1" '2 machines read back' "$("$work/hoa_reader" "$1" <"$work/both" 2>&1)"
    same "export $1" '' "$({ "$work/export" "$1" 0 && "$work/export" "$1" 1; } | cmp - "$work/both" 2>&1)"
}
for sample in samples/*.dom; do exported "$sample"; done
# a whole text: several start states, a state in no set, an observation with ones and zeros
from seen falling; byte 18 165; byte 21 5; byte 53 4; seal; seen=$file
cat >"$work/text" <<'END'
HOA: v1
States: 3
Start: 0
Start: 2
AP: 8 "o0" "o1" "o2" "o3" "o4" "o5" "o6" "o7"
acc-name: generalized-Buchi 2
Acceptance: 2 Inf(0)&Inf(1)
properties: state-labels state-acc
--BODY--
State: [0&!1&2&!3&!4&5&!6&7] 0 {1}
1 2
State: [!0&!1&!2&!3&!4&!5&!6&!7] 1
1
State: [!0&!1&!2&!3&!4&!5&!6&!7] 2 {0 1}
0 1 2
--END--
HOA: v1
States: 4
Start: 0
AP: 8 "o0" "o1" "o2" "o3" "o4" "o5" "o6" "o7"
acc-name: generalized-Buchi 2
Acceptance: 2 Inf(0)&Inf(1)
properties: state-labels state-acc
--BODY--
State: [!0&!1&!2&!3&!4&!5&!6&!7] 0 {1}
1 2
State: [!0&!1&!2&!3&!4&!5&!6&!7] 1 {1}
1
State: [!0&!1&!2&!3&!4&!5&!6&!7] 2 {0}
1 2
State: [!0&!1&!2&!3&!4&!5&!6&!7] 3 {0}
0 2 3
--END--
END
exported "$seen"
same 'hoa seen' '' "$(cmp "$work/text" "$work/both" 2>&1)"
# the longest text: full masks and observations 0
from full large; bytes 18 64 0; bytes 82 428 255; bytes 514 156 255; bytes 670 64 0; bytes 734 288 255; bytes 1026 288 255; seal 0; seal 1; seal 2
exported "$file"
same 'export full, bytes' 15941 "$("$work/export" "$file" 0 | wc -c | tr -d ' ')"
for room in 20000 20001 40000; do exports "$("$work/export" "$file" 1)" "$file" 1 $room; done
# the reader's refusals, as shelf tells them; of a file that is too long the program reads no more than it needs to refuse it
for name in empty short check number letters first-zero last-zero table-byte no-states eight-sets long cut later padding \
    beyond no-start stuck odd set-and-stuck; do
    file=$work/$name
    line=$(crates/shelf/out/shelf <"$file")
    same "hoa $file" "$line" "$(crates/hoa/out/hoa <"$file")"
    for machine in 0 1; do exports "$line" "$file" $machine; done
done
same 'hoa longer' 'refused 6 0 0 0' "$(crates/hoa/out/hoa <"$work/longer")"
exports 'refused 2 0 0 0' "$work/longer" 0
# 1 before the file is looked at; then the reader's refusals, and last 20
for room in 0 19999; do exports 'refused 1 0 0 0' samples/case-05.dom 0 $room; done
exports 'refused 1 0 0 0' "$work/later" 2 19999
exports 'refused 7 3 0 0' "$work/later" 2
exports 'refused 11 1 1 0' "$work/stuck" 2
for machine in 2 256 4294967296 18446744073709551615; do exports 'refused 20 0 0 0' samples/case-05.dom $machine; done

# the reader of the Hanoi format on its own: what it says of the text above after a filter
# reads SAID FILTER..: whether it is of the format, 'taken' if it is
reads() {
    said=$1
    shift
    same "hoa_reader --accepts, $*" "$said" "$("$@" <"$work/text" | "$work/hoa_reader" --accepts 2>&1 && echo taken)"
}
# compares SAID FILTER..: whether it has the machines of the show
compares() {
    said=$1
    shift
    same "hoa_reader, $*" "$said" "$("$@" <"$work/text" | "$work/hoa_reader" "$seen" 2>&1)"
}
# varied FILTER..: of the same machines the format allows other texts
varied() {
    reads taken "$@"
    compares '2 machines read back' "$@"
}
# white space and comments
varied cat
varied tr ' \n' '\t\r'
varied tr '\n' ' '
varied sed 's/^State: /State:/;s/] /]/;s/ {/{/;s/: /:/;s/&/ \& /g'
varied sed 's,^[A-Z].*: ,&/* of /* one */ "*/,'
# labels, conditions, sets and successors in other words, an alias
varied sed 's/!1&2&!3&!4/!(1|3|4)\&(2\&t)/'
varied sed 's/\[0&!1&2/[2\&!1\&0\&(!0|1\&f|2)/'
varied sed 's/^AP: .*/& Alias: @low !0 Alias: @a-1 !@low/;s/\[0&/[@a-1\&/'
varied sed 's/Inf(0)&Inf(1)/(Inf(1)\&(Inf(0)))/'
varied sed 's/{0 1}/{1 0 1}/;s/^0 1 2/2 1 0 1/'
# other items, another order of items and of states, no number of states, names of states, an automaton that is broken off
varied sed 's/^States/name: "a\\"" tool: "b" "c" note: t 1 "d" e &/'
varied sed 's/^prop.*/properties: explicit-labels other properties:/;/^acc-name/d'
varied sed '/^States:/{h;d;};/^AP:/G'
varied sed '10,11{H;d;};15G'
varied sed '/^States/d'
varied sed 's/] 1/] 1 "State: 1"/'
varied sed '1s/^/HOA: v1 States: --ABORT--/'
# automata that are no machines
reads taken sed 's/^Start: 2/Start: 0\&1/'
reads taken sed '/^prop/d;/^State:/{s/\[.*] //;s/{.*//;};s/^1$/[0\&!1|2] 1 {0} [t] 0\&1/;s/^1 2$/[f] 1/;s/^0 .*//'
reads taken sed 's/^AP.*/AP: 1 "a"/;s/\[.*] //;s/^1$/1 1/;s/^0 .*/0 2/;s/^prop.*/properties: implicit-labels/'
reads taken sed 's/^Acc.*/Acceptance: 2 Fin(!0)|t\&Inf(1)/;s/^acc-.*/acc-name: Rabin 1/'
reads taken sed 's/^Acc.*/Acceptance: 2 Fin(0)\&Inf(1)/;s/^acc-.*/acc-name: Rabin 1/'
reads taken sed 's/^Acc.*/Acceptance: 2 Fin(!0)|t\&Inf(1)/;/^acc-/d'
# what this reader does not take, though others may: an item with a capital that it does not know, a state that nothing leads to and that is not listed
reads 'line 2: an unknown header item, which must not be ignored, since it has a capital' sed 's/^States/Note: 1 &/'
reads 'line 16: 3 states are defined, of 4' sed '2s/3/4/'
# what the format does not allow
reads 'line 16: no edge, no state and no --END--' sed 16d
reads 'line 33: no edge, no state and no --END--' sed '$d'
reads 'line 1: not version v1' sed s/v1/v2/
reads 'line 1: no HOA:' sed 1d
reads 'line 8: no Acceptance:' sed '/^Acceptance/d'
reads 'line 9: no header item and no --BODY--' sed '9s/.*/0/'
reads 'line 3: States: is given twice' sed '2s/.*/& &/;2s/ States/\
States/'
reads 'line 6: 7 names of 8 propositions' sed 's/ "o7"//'
reads 'line 6: 9 names of 8 propositions' sed 's/ "o7"/& "o8"/'
reads 'line 5: two propositions have one name' sed s/o7/o6/
reads 'line 10: 8 is not below the number of propositions, 8' sed 's/&7]/\&8]/'
reads 'line 9: 0 is not below the number of propositions, 0' sed 's/^AP.*/Alias: @a 0/'
reads 'line 10: an alias is used and was not defined' sed 's/\[0/[@a/'
reads 'line 9: Acceptance: is not that of generalized-Buchi 3' sed 's/Buchi 2/Buchi 3/'
reads 'line 9: Acceptance: is not that of generalized-Buchi 2' sed 's/(0)&/(0)|/'
reads 'line 9: Acceptance: is not that of generalized-Buchi 2' sed 's/Inf(1)/Inf(0)/'
reads 'line 9: Acceptance: is not that of generalized-Buchi 2' sed 's/Inf(1)/Fin(1)/'
reads 'line 7: 2 is not below the number of sets, 2' sed 's/Inf(1)/Inf(2)/'
reads 'line 14: 2 is not below the number of sets, 2' sed 's/{0 1}/{0 2}/'
reads 'line 4: 3 is not below the number of states, 3' sed 's/^Start: 2/Start: 3/'
reads 'line 14: 3 is not below the number of states, 3' sed 's/] 2/] 3/'
reads 'line 15: 3 is not below the number of states, 3' sed 's/^0 1 2/0 1 3/'
reads 'line 16: state 0 is defined twice, in lines 10 and 12' sed 's/] 1$/] 0/'
reads 'line 14: 2 states are defined, of 3' sed 14,15d
reads 'line 16: the automaton has not the property state-labels' sed '12s/\[.*] //;13s/^/[t] /'
reads 'line 16: the automaton has not the property state-acc' sed '13s/$/ {0}/'
reads 'line 14: state 1 has a label, and so has an edge of it' sed '13s/^/[t] /'
reads 'line 14: state 1 has no labels, and not one edge for each valuation' sed '12s/\[.*] //'
reads 'line 10: no closing bracket' sed 's/]//'
reads 'line 10: no number' sed 's/&!1/\&\&1/'
reads 'line 10: a number has a 0 in front, or is 2147483648 or more' sed 's/] 0/] 00/'
reads 'line 1: a comment does not end' sed '1s,$, /* /* */,'
reads 'line 34: no HOA:' sed '$s/$/\
--END--/'
reads 'line 1: the stream has 0 automata' sed d
# every field is compared, and there are two automata
compares 'line 16: rig, observation of state 0: read 167, and the show has 165' sed '10s/!1/1/'
compares 'line 16: rig, state 0: no label that holds for one byte alone' sed '10s/&!1//'
compares 'line 16: rig, state 0: no label that holds for one byte alone' sed '10s/!1/0\&!0/'
compares 'line 15: rig, start mask: read 1, and the show has 5' sed 4d
compares 'line 16: rig, successor mask of state 0: read 2, and the show has 6' sed '11s/ 2//'
compares 'line 16: rig, mask of set 0: read 0, and the show has 4' sed '14s/{0 1}/{1}/'
compares 'line 33: score, mask of set 1: read 7, and the show has 3' sed '29s/{0}/{0 1}/'
compares 'line 33: score, successor mask of state 3: read 15, and the show has 13' sed '32s/0/0 1/'
compares 'line 16: rig: proposition 7 is not "o7"' sed s/o7/o8/
compares 'line 16: rig: 9 propositions, not 8' sed 's/AP: 8/AP: 9/;s/ "o7"/& "o8"/'
compares 'line 15: rig: not the generalized Buchi condition' sed '6d;s/(0)&/(0)|/'
compares 'line 16: rig, sets: read 3, and the show has 2' sed 's/Buchi 2/Buchi 3/;s/: 2 Inf/: 3 Inf(2)\&Inf/'
compares 'line 16: rig: labels or sets of edges, or states joined by &' sed '4s/2/0\&2/'
compares 'line 17: rig, states: read 4, and the show has 3' sed 1,16d
compares 'line 17: the stream has 1 automata' sed 17,33d
compares 'line 67: the stream has 4 automata' cat - "$work/text"

[ "$failed" = 0 ] || exit 1
echo "clients/check.sh: $tried calls, each as expected"
