#!/usr/bin/env bash
# Runs the program replay on lines that are too long, or take too much memory, to be among the recorded ones, and on lines
# that are no calls, which neither the model nor the static library reads.
set -eu
root=$(cd "$(dirname "$0")/.." && pwd)
bin="$root/crates/replay/out/replay"
passed=0

expect() {
    local what=$1 lines=$2 wanted=$3
    local got
    got=$(printf '%s\n' "$lines" | "$bin")
    if [ "$got" != "$wanted" ]; then
        echo "tests/replay.sh: $what: wanted"
        printf '%s\n' "$wanted"
        echo "and got"
        printf '%s\n' "$got" | cut -c1-200
        exit 1
    fi
    passed=$((passed + 1))
}

# 32,767 empty inline texts of capacity 65,535: a sheet of 196,604 bytes, and heads of more than 2^31.
items=$(printf '544900000000%.0s' $(seq 32767))
expect "a sound sheet whose value is longer than any archive" "new 40
push_bytes FF 1
scan r32767.i65535. 414E$items
build r32767.i65535. l 414E$items
build r32767.i65535. l 414E${items}00
build r32767.i65535. l 414E${items%??}
align 1
finish" "ok
ok 0
ok 196604
refused 4 0 0
refused 15 196604 0
refused 12 196598 1
ok 1
ok 1 1 FF"

expect "a buffer over the limit" "new 2147483648
align 1
new 8
align 8" "refused 1 0 0
not a call: no builder is open
ok
ok 0"
# What is missing or cannot be read is told by its name, and the next line is read.
expect "lines that are no calls" "
nonsense
NEW 8
new
new x
new -1
new 18446744073709551616
new 1.
new 8
short
short nonsense
short finish
short new 8
align
align 1x
reserve
reserve 1
reserve 1 x
reserve 1 lb
reserve x b
reserve_bytes 1
reserve_bytes x 1
reserve_bytes 1 x
write
write 0
write x -
write 0 0
push 1 l
push 1 l 0
push 1 x 00
push_bytes
push_bytes 00
push_bytes 00 x
build 1 l
build 1 l 4e3100
build 1 l 4G
build x l -
finish" "not a call: a word is missing
not a call: no such call
not a call: no such call
not a call: a word is missing
not a call: a number was expected
not a call: a number was expected
not a call: a number was expected
not a call: a number was expected
ok
not a call: a word is missing
not a call: no such call
not a call: no such call
not a call: no such call
not a call: a word is missing
not a call: a number was expected
not a call: a word is missing
not a call: a word is missing
not a call: an order is l or b
not a call: an order is l or b
not a call: no such kind in the catalogue
not a call: a word is missing
not a call: a number was expected
not a call: a number was expected
not a call: a word is missing
not a call: a word is missing
not a call: a number was expected
not a call: an odd number of hexadecimal digits
not a call: a word is missing
not a call: an odd number of hexadecimal digits
not a call: an order is l or b
not a call: a word is missing
not a call: a word is missing
not a call: a number was expected
not a call: a word is missing
not a call: hexadecimal digits were expected
not a call: hexadecimal digits were expected
not a call: no such kind in the catalogue
ok 0 1 -"

expect "lines on an archive or a sheet that are no calls" "scan
scan 1
scan 1 4E310
scan x 4E3100
scan 1x 4E3100
scan 1 4E3100
shallow 1 l 0
shallow 1 l x 00
shallow 1 x 0 00
deep 1 l 0
deep 1 l x 00
deep x l 0 00
get t l 0
get t l x 00
get x l 0 00
get 1 x 0 00
get 1 l 0 00
copy 1 l 0 3
copy 1 l 0 x 00
copy 1 l x 3 00
copy 1 l 0 3 0x
copy 1 l 0 3 00" "not a call: a word is missing
not a call: a word is missing
not a call: an odd number of hexadecimal digits
not a call: no such kind in the catalogue
not a call: no such kind in the catalogue
ok 3
not a call: a word is missing
not a call: a number was expected
not a call: an order is l or b
not a call: a word is missing
not a call: a number was expected
not a call: no such kind in the catalogue
not a call: a word is missing
not a call: a number was expected
not a call: no such kind in the catalogue
not a call: an order is l or b
not a call: this kind has no get
not a call: a word is missing
not a call: a number was expected
not a call: a number was expected
not a call: hexadecimal digits were expected
ok 3 4E3100"

expect "lines on text, words of sheets and counts that are no calls" "text
text 4
text 4a
texts
texts x
texts 4
texts 0
word
word 1
word 1 4
word N1 4E3107
word i4. 544900000000
word x -
short text 41
tell
tell nonsense
tell new 8
tell text 41
tell short align 1
tell get 1 l 0 00" "not a call: a word is missing
not a call: an odd number of hexadecimal digits
not a call: hexadecimal digits were expected
not a call: a word is missing
not a call: a number was expected
not a call: texts are counted up to a length of 3
ok 1
not a call: a word is missing
not a call: a word is missing
not a call: an odd number of hexadecimal digits
not a call: no such word of a sheet
not a call: no such word of a sheet
not a call: no such word of a sheet
not a call: no such call
not a call: a word is missing
not a call: no such call
not a call: no such call
not a call: no such call
not a call: no such call
not a call: this kind has no get"

# That no builder is open is told before what is wrong with numbers, the kind or the order, as the model has it.
expect "calls of a builder where none is open" "align x
reserve x x
reserve_bytes x x
write x 00
push x x 00
push_bytes 00 x
build x x 00
short align 1
finish" "$(printf 'not a call: no builder is open\n%.0s' $(seq 9))"

# A line that asks for more memory than there can be; the lines behind it are read.
expect "no memory for an output" "copy 1 l 0 18446744073709551615 07
copy 1 l 0 3 07" "not made: out of memory
ok 3 4E3107"

# Bytes are told in blocks of 512: archives at the ends of blocks, whose digits are those that were pushed.
for length in 0 1 511 512 513 1023 1024 1025; do
    digits=$(for ((i = 0; i < length; i++)); do printf '%02X' $((i % 251)); done)
    expect "an archive of $length bytes" "new $length
push_bytes ${digits:--} 1
finish" "ok
ok 0
ok $length 1 ${digits:--}"
done

# Bytes are told a few at a time: all digits of this output would be 200 MB beside its 100.
got=$(ulimit -v 200000 && echo 'copy 1 l 0 100000000 07' | "$bin" | cut -c1-16)
if [ "$got" != "ok 3 4E3107EEEEE" ]; then
    echo "tests/replay.sh: an output with no room for all of its digits: got $got"
    exit 1
fi
passed=$((passed + 1))

echo "tests/replay.sh: $passed passed"
