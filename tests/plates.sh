#!/usr/bin/env bash
# Runs the commands of plates on files, after the gate has built it: what they write, what they refuse, and that
# nothing is left half written. Its last line says how many checks passed.
set -u
root=$(cd "$(dirname "$0")/.." && pwd)
bin="$root/crates/plates/out/plates"
room=$(mktemp -d)
trap 'rm -rf "$room"' EXIT
cd "$room" || exit 1
passed=0
failed=0

# check NAME STATUS: the last command's outcome
check() {
    if [ "$2" -eq 0 ]; then
        passed=$((passed + 1))
    else
        failed=$((failed + 1))
        echo "tests/plates: $1"
        head -qn 3 out err 2>/dev/null | sed 's/^/    /'
    fi
}

# accepts NAME TEXT ARGS..: status 0, TEXT in what it writes, and nothing on standard error
accepts() {
    local name=$1 text=$2
    shift 2
    "$bin" "$@" >out 2>err && grep -qF -- "$text" out && [ ! -s err ]
    check "$name" $?
}

# refuses NAME TEXT ARGS..: status 1, one line on standard error with TEXT in it, and nothing on standard output
refuses() {
    local name=$1 text=$2 status
    shift 2
    "$bin" "$@" >out 2>err
    status=$?
    [ "$status" -eq 1 ] && [ ! -s out ] && grep -qF -- "plates: $text" err && [ "$(wc -l <err)" -eq 1 ]
    check "$name" $?
}

# byte N VALUE FILE: one byte altered
byte() {
    printf "\\x$2" | dd of="$3" bs=1 seek="$1" conv=notrunc 2>/dev/null
}

# hex: standard input in hexadecimal digits
hex() {
    od -An -v -tx1 | tr -d ' \n'
}

sample="$root/samples/boat.txt"

# The round
"$bin" <"$sample" >out 2>err && cmp -s out "$root/crates/plates/stdout" && [ ! -s err ]
check "with no words, the round on standard input" $?
printf 'P1;C8\nP2\n' | "$bin" >out 2>err
[ $? -eq 1 ] && [ ! -s out ] && grep -qF "plates: line 2 of the list" err
check "the round on a list that is refused" $?
# The last byte is of the distance of an empty list of parts, at which no reader looks.
printf 'P1;C8\n' | "$bin" >out 2>err
[ "$(tail -n 1 out)" = "with byte 67 damaged it is still sound" ] && [ ! -s err ]
check "the round on an archive whose damage is not seen" $?

# The sample boat
accepts "the sample boat is built" "written to boat.plates" build "$sample" boat.plates
accepts "it is built once more, over what was there" "11 plates, equal to what was built" build "$sample" boat.plates
[ ! -e boat.plates.part ]
check "nothing is left beside" $?
cmp -s boat.plates "$root/samples/boat.plates"
check "it is the archive that is kept" $?
accepts "it is sound" "boat.plates is sound: 11 plates in $(stat -c %s boat.plates) bytes" check boat.plates
accepts "a plate is listed with its cast and its parts" "PL-2044-01  cast C-88431  cut: side shell 2 port, side shell 2 starboard, doubler 8" list boat.plates
accepts "a plate of which nothing was cut is listed" "PL-2043-02  cast C-88420  nothing cut yet" list boat.plates
accepts "text that is not ASCII is listed" "PL-2043-Å7" list boat.plates
[ "$(wc -l <out)" -eq 11 ]
check "there is a line a plate" $?
accepts "a number is shown with its place in the sheet" "    6  place    103  length   10  PL-2044-01" words boat.plates
accepts "a number that is not ASCII is as long as its bytes" "    5  place     86  length   11  PL-2043-Å7" words boat.plates
accepts "there are totals" "11 plates, 0 of them without a number; 111 bytes of text in a sheet of 183 bytes" words boat.plates
"$bin" copy boat.plates >sheets 2>err && [ "$(head -c 16 sheets | hex)" = 534c0b00000054580a000000504c2d32 ]
check "the sheets are copied out" $?

# One plate, by the document
printf 'P1;C8;R4\n' >one.txt
accepts "an archive of one plate is built" "78 bytes, alignment 4" build one.txt one.plates
[ "$(hex <one.plates)" = 0c0000001c0000002c000000010000000400000002000000040000005031000001000000040000000200000004000000433800000100000004000000010000000400000002000000040000005234 ]
check "its bytes are those of the document" $?
printf 'P1;C8;R4;R5\nP10;C8\n' >two.txt
accepts "an archive of two plates is built" "116 bytes, alignment 4" build two.txt two.plates
[ "$(hex <two.plates)" = 0c00000028000000400000000200000004000000020000000c000000030000000600000050315031300000000200000004000000020000000c0000000200000006000000433843380200000004000000020000000c0000000000000018000000020000000c000000020000000600000052345235 ]
check "the bytes of two plates are those of the document" $?
[ "$("$bin" copy one.plates | hex)" = 534c010000005458020000005031534c010000005458020000004338534c01000000534c010000005458020000005234 ]
check "its three sheets are those of the document" $?
accepts "its one number is shown" "    0  place      6  length    2  P1" words one.plates
printf ';C8\n;C8;\n' >unnamed.txt
accepts "plates without a number" "written to unnamed.plates" build unnamed.txt unnamed.plates
accepts "they are counted" "2 plates, 2 of them without a number; 0 bytes of text in a sheet of 18 bytes" words unnamed.plates

# Standard input, pipes and links
accepts "a list from standard input" "78 bytes, alignment 4" build - piped.plates <one.txt
cmp -s piped.plates one.plates
check "it gives the same archive" $?
accepts "a list from a pipe" "78 bytes, alignment 4" build <(cat one.txt) piped.plates
accepts "an archive from standard input" "standard input is sound: 1 plates in 78 bytes" check - <one.plates
refuses "standard input that is refused" "standard input is refused: the list of plate numbers" list - <one.txt
refuses "no archive to standard output" "FILE cannot be '-'" build one.txt -
cp one.txt one
refuses "a list is not replaced" "one is the list itself" build one one
ln one hard
ln -s one soft
refuses "nor by another name" "hard is the list itself" build one hard
refuses "nor through a link" "one is the list itself" build soft one
refuses "nor where it is standard input" "one is the list itself" build - one <one
cp one whole.part
refuses "nor where it stands beside" "whole.part is there already" build whole.part whole
cmp -s one one.txt && cmp -s whole.part one.txt && [ ! -e whole ]
check "the lists are as they were" $?

# Damage
cp one.plates damaged
byte 76 FF damaged
refuses "a byte of a text is damaged" "damaged is refused: the list of parts: bytes in the archive that are not UTF-8 text (refusal 23, place 68, depth 3)" check damaged
refuses "a damaged file is not listed" "damaged is refused: the list of parts: bytes in the archive" list damaged
refuses "a damaged file is not copied" "damaged is refused: the list of parts: bytes in the archive" copy damaged
refuses "its numbers are not shown" "damaged is refused: the list of parts: bytes in the archive" words damaged
cp one.plates damaged
byte 4 1D damaged
refuses "a pointer is damaged" "damaged is refused: the list of casts: a value at a place that is no multiple of its alignment (refusal 22, place 4, depth 0)" check damaged
cp one.plates damaged
byte 15 FF damaged
refuses "a count is damaged" "damaged is refused: the list of plate numbers: a value that does not lie within the archive (refusal 21, place 16, depth 1)" check damaged
cp one.plates damaged
byte 36 FF damaged
refuses "a distance is damaged" "damaged is refused: the list of casts: a value that does not lie within the archive (refusal 21, place 36, depth 1)" check damaged
head -c 77 one.plates >short
refuses "a file is cut" "short is refused: the list of parts: a value that does not lie within the archive (refusal 21, place 72, depth 3)" check short
: >empty
refuses "an empty file is no archive" "empty is refused: the list of plate numbers: a value that does not lie within the archive (refusal 21, place 0, depth 0)" check empty
cp one.plates damaged
byte 32 00 damaged
refuses "lists that are not as long" "damaged is refused: it has 1 plate numbers, 0 casts and 1 lists of parts" check damaged
(cat one.plates && printf 'anything') >followed
accepts "bytes behind an archive do not matter" "followed is sound" check followed

# Sixteen plates whose numbers and casts are one text: each sheet is longer than the archive.
# le N: a number, four bytes little end first
le() {
    printf "\\x$(printf %02x $(($1 & 255)))\\x$(printf %02x $(($1 >> 8 & 255)))\\0\\0"
}
text=$(printf 'x%.0s' $(seq 255))
{
    le 12 && le 16 && le 20
    le 16 && le 20 && le 16 && le 12 && le 16 && le 132
    for i in $(seq 0 15); do le 255 && le $((292 - 40 - 8 * i)); done
    for i in $(seq 0 31); do le 0; done
    printf %s "$text"
} >shared
{
    for list in numbers casts; do
        printf 'SL' && le 16
        for i in $(seq 0 15); do printf 'TX' && le 255 && printf %s "$text"; done
    done
    printf 'SL' && le 16
    for i in $(seq 0 15); do printf 'SL' && le 0; done
} >sheets
accepts "an archive of plates that share a text" "shared is sound: 16 plates in 547 bytes" check shared
"$bin" copy shared >out 2>err && cmp -s out sheets && [ ! -s err ]
check "its sheets, which are longer than it" $?

# Lists that are refused
refuses "a list that is not there" "cannot open nowhere.txt: No such file or directory" build nowhere.txt bad.plates
refuses "a list that is a folder" "$room is a directory" build "$room" bad.plates
printf 'P1;C8\nP2\n' >bad.txt
refuses "a plate without a cast" "line 2 of the list: a plate has a number and a cast" build bad.txt bad.plates
printf 'P1;C8\n\nP2;C8\n' >bad.txt
refuses "an empty line" "line 2 of the list: a plate has a number and a cast" build bad.txt bad.plates
printf 'P1;C8\nP\xff;C8\n' >bad.txt
refuses "a line that is no text" "line 2 of the list: it is not UTF-8 text" build bad.txt bad.plates
refuses "an empty list" "the list is empty: it has no plate" build empty bad.plates
cp one.plates kept
refuses "an empty list over an archive" "the list is empty: it has no plate" build empty kept
cmp -s kept one.plates
check "the archive that was there stays" $?
[ ! -e bad.plates ] && [ ! -e bad.plates.part ] && [ ! -e kept.part ]
check "a refused list leaves no file" $?

# Files that cannot be had
refuses "an archive that is not there" "cannot open nowhere: No such file or directory" check nowhere
refuses "a folder that is not there" "cannot write nowhere/boat.plates.part: No such file or directory" build "$sample" nowhere/boat.plates
mkdir taken
refuses "a name that is taken by a folder" "taken is a directory" build "$sample" taken
refuses "a folder is no archive" "taken is a directory" check taken
refuses "a name that is empty" "cannot rename .part to : No such file or directory" build "$sample" ''
[ ! -e .part ]
check "what was written for it is taken away" $?
refuses "a file that cannot be read" "cannot read /proc/self/mem: Input/output error" check /proc/self/mem
mkfifo pipe
refuses "a name that is taken by a pipe" "pipe is there, and is no file" build "$sample" pipe
[ -p pipe ] && [ ! -e pipe.part ] && [ ! -e taken.part ]
check "what had the names still has them" $?
said=$( (trap '' XFSZ && ulimit -f 0 && exec "$bin" build "$sample" kept) 2>&1 >/dev/null)
[ $? -eq 1 ] && grep -qF "plates: cannot write kept.part: File too large" <<<"$said" && [ ! -e kept.part ] && cmp -s kept one.plates
check "an archive that finds no room" $?
# Where there is a C compiler: a disk that does not keep what was written, which a build asks for before the archive gets its name.
if command -v cc >/dev/null; then
    printf '#include <errno.h>\nint fsync(int file) { (void)file; errno = EIO; return -1; }\n' | cc -shared -fPIC -o lost.so -xc -
    LD_PRELOAD=$room/lost.so "$bin" build "$sample" kept >out 2>err
    [ $? -eq 1 ] && [ ! -s out ] && grep -qF "plates: cannot write kept.part: Input/output error" err && [ ! -e kept.part ] && cmp -s kept one.plates
    check "an archive that the disk does not keep" $?
fi
cp one.plates busy.part
refuses "another build is at work" "busy.part is there already" build "$sample" busy
cmp -s busy.part one.plates && [ ! -e busy ]
check "what it has written so far is left to it" $?
rm busy.part
for i in 1 2 3 4 5 6 7 8; do
    (for _ in 1 2 3 4 5; do "$bin" build "$sample" busy >"out.$i" 2>"err.$i" || grep -qF "busy.part is there already" "err.$i" || echo >"wrong.$i"; done) &
done
wait
[ -z "$(ls wrong.* 2>/dev/null)" ] && [ ! -e busy.part ] && cmp -s busy boat.plates
check "many builds of one file at once" $?

# What is written is read again before it gets its name: what was done to it in between is found.
seq -f 'PL-%.0f;C-1;keel web 1' 1 200000 >longer.txt
"$bin" build longer.txt longer.plates >out 2>err
end=$(($(stat -c %s longer.plates) - 1))

# meddled COMMAND..: builds the long list as late.plates, and runs the command while the build stands still with late.plates.part
# written; once more where the build was too fast. The build's status, with what it says in out and err.
meddled() {
    local builder status try
    for try in 1 2 3 4 5 6 7 8 9 10; do
        rm -rf late.plates late.plates.part
        "$bin" build longer.txt late.plates >out 2>err &
        builder=$!
        until [ -s late.plates.part ] || ! kill -0 "$builder" 2>/dev/null; do :; done
        kill -STOP "$builder" 2>/dev/null
        until grep -qs '^State:.[TZ]' "/proc/$builder/status" || ! kill -0 "$builder" 2>/dev/null; do :; done
        [ -e late.plates.part ] && "$@"
        kill -CONT "$builder" 2>/dev/null
        wait "$builder"
        status=$?
        [ "$status" -eq 0 ] || break
    done
    return "$status"
}

meddled byte "$end" FF late.plates.part
[ $? -eq 1 ] && [ ! -s out ] && grep -qF "plates: late.plates.part is refused: the list of parts: bytes in the archive that are not UTF-8 text" err
check "a byte that was damaged before it was read again" $?
meddled byte "$end" 32 late.plates.part
[ $? -eq 1 ] && [ ! -s out ] && [ "$(cat err)" = "plates: late.plates.part is not what was built: the list of parts is another" ]
check "a letter that was altered before it was read again" $?
[ ! -e late.plates ] && [ ! -e late.plates.part ]
check "neither got the name, and neither is left beside" $?
meddled mkdir late.plates
[ $? -eq 1 ] && [ ! -s out ] && grep -qF "plates: cannot rename late.plates.part to late.plates: Is a directory" err && [ ! -e late.plates.part ]
check "a name that a folder took in the meantime" $?
rm -rf late.plates longer.txt longer.plates

# Large files, and one that changes while it is read
truncate -s 2147483648 large
refuses "a file over the limit" "large is refused: more bytes than the limit of 2,147,483,647 (refusal 1, place 0, depth 0)" check large
refuses "a list over the limit" "large is refused: more bytes than the limit of 2,147,483,647 (refusal 1, place 0, depth 0)" build large bad.plates
rm -f large
cp one.plates middle
truncate -s 20M middle
"$bin" check middle >out 2>err && [ "$(cat err)" = "plates: middle: 16 MiB read .." ] && grep -qF "middle is sound: 1 plates in 20971520 bytes" out
check "a large file is told of as it is read" $?
truncate -s 33554433 middle
"$bin" check middle >out 2>err && [ "$(cat err)" = "plates: middle: 16 MiB read ..
plates: middle: 32 MiB read .." ]
check "it is told of more than once" $?
truncate -s 16777217 middle
"$bin" check middle >out 2>err && [ "$(cat err)" = "plates: middle: 16 MiB read .." ]
check "a byte more than 16 MiB is told of" $?
truncate -s 16777215 middle
accepts "a byte less is not" "middle is sound: 1 plates in 16777215 bytes" check middle
truncate -s 20M middle
# All that may be read is read: no block too few.
truncate -s 2147483647 most
"$bin" check most >out 2>err
[ $? -eq 1 ] && [ ! -s out ] && [ "$(tail -n 1 err)" = "plates: most is refused: it has no plates" ] && [ "$(wc -l <err)" -eq 128 ]
check "a file at the limit is read" $?
rm -f most
# What cannot say how long it is ends there too.
"$bin" check - </dev/zero >out 2>err
[ $? -eq 1 ] && [ ! -s out ] && [ "$(tail -n 1 err)" = "plates: standard input is refused: more bytes than the limit of 2,147,483,647 (refusal 1, place 0, depth 0)" ]
check "standard input over the limit" $?
truncate -s 4096 zeros
refuses "zeros, which read as three empty lists" "zeros is refused: it has no plates" check zeros
truncate -s 1G shrunk
: >err
"$bin" check shrunk >out 2>err &
reader=$!
until [ -s err ] || ! kill -0 "$reader" 2>/dev/null; do :; done
kill -STOP "$reader"
truncate -s 1M shrunk
kill -CONT "$reader"
wait "$reader"
[ $? -eq 1 ] && [ ! -s out ] && grep -qE "^plates: shrunk changed while it was read: it had 1073741824 bytes, and [0-9]+ were read$" err
check "a file that shrinks while it is read" $?
rm -f shrunk

# Standard output and standard error that cannot be written
seq -f 'PL-%.0f;C-1;keel web 1' 1 20000 >long.txt
accepts "a long list" "written to long.plates" build long.txt long.plates
{ "$bin" list long.plates 2>err; echo $? >status; } | head -n 1 >out
[ "$(cat status)" = 1 ] && [ "$(cat out)" = "    0  PL-1  cast C-1  cut: keel web 1" ] && grep -qF "plates: cannot write to standard output: Broken pipe" err
check "standard output that is closed on the way" $?
"$bin" list boat.plates >&- 2>err
[ $? -eq 1 ] && grep -qF "plates: cannot write to standard output" err
check "standard output that is closed before" $?
if [ -c /dev/full ]; then
    "$bin" copy boat.plates >/dev/full 2>err
    [ $? -eq 1 ] && grep -qF "plates: cannot write to standard output: No space left on device" err
    check "standard output that is full" $?
    "$bin" build "$sample" told.plates >/dev/full 2>err
    [ $? -eq 1 ] && cmp -s told.plates boat.plates && [ ! -e told.plates.part ]
    check "the file is whole then too" $?
fi
"$bin" check short >out 2>&-
[ $? -eq 1 ] && [ ! -s out ]
check "standard error that is closed" $?
"$bin" check middle >out 2>&- && grep -qF "middle is sound: 1 plates" out
check "progress that cannot be told" $?

# The words of the command line
accepts "help" "plates build LIST FILE" help
cmp -s out - <<'END'
plates build LIST FILE   builds the archive FILE from the plate list LIST
plates check FILE        reads all of an archive, and says what is wrong and where
plates list FILE         shows each plate: its number, its cast, the parts that were cut from it
plates words FILE        shows the sheet of the plate numbers: each with its place in it and its length, then totals
plates copy FILE         writes the sheets of the three lists to standard output, one behind another
plates help              shows this
plates                   the whole round in memory, on the list that standard input has; at its end a byte is damaged

A plate list is UTF-8 text with a line a plate: number;cast;part;part;..  A plate of which nothing was cut has no parts.
Where a list or an archive is read, '-' stands for standard input. FILE may not be LIST, nor anything that is no file.
build writes FILE.part, reads it again, checks it, copies its lists out, compares, and only then renames it to FILE: what
has the name FILE is always whole. Where a build was cut off FILE.part stays, and the next build says so: remove it then.
Where anything is refused, standard error says why, standard output has nothing, and the exit status is 1; the status is 1
too where standard output cannot be written. Each 16 MiB that are read are told of on standard error. More than
2,147,483,647 bytes are refused.
END
check "all of it" $?
"$bin" --help | cmp -s - out && "$bin" -h | cmp -s - out
check "it is also asked for as an option" $?
refuses "a command that is none" "there is no command 'nonsense'" nonsense
refuses "an option that is none" "there is no command '--deep'" --deep
refuses "a word that is empty" "there is no command ''" ''
refuses "a word too few" "this command is written 'plates build LIST FILE'" build one.txt
refuses "no word" "this command is written 'plates check FILE'" check
refuses "a word too many" "this command is written 'plates list FILE'" list boat.plates twice
refuses "a word behind help" "this command is written 'plates help'" help check
refuses "a word that is no text" "the words" check $'\xff'

echo "tests/plates: $passed passed, $failed failed"
[ "$failed" -eq 0 ]
