# Cases of tests/solve: what a sheet may hold, what is shown of it, and refusals in words. To be sourced.

# Makes a sheet of printf's text.
# shellcheck disable=SC2059
bytes() { printf "$@" >"$work/sheet"; } # FORMAT ARGUMENT...

# That ./solve stops at a sheet's bytes.
stops() { # NAME PATTERN FORMAT
    bytes "$3"
    expect "$1" 2 /dev/null "$2" ./solve "$work/sheet"
    lines_said "$1" 1
}

# That ./solve takes exactly these rows.
takes() { # NAME FORMAT ROW...
    bytes "$2"
    printf '%s\n' "${@:3}" >"$work/want"
    expect "$1" 0 "$work/want" "^solve: $(($# - 2)) row" ./solve --lines "$work/sheet"
}

carriage_returns() {
    local p='0100000000000000'
    stops "a comment that a carriage return ends" 'sheet, line 2: byte 33 is 0d, a carriage return that no line feed follows$' \
        '01 00 0000 0000 0000  # p\n10 00 0000 0000 0000  # 1: not p\r11 00 0000 0001 0000  # 2: both\n'
    stops "a carriage return in a row" 'line 1: byte 3 is 0d, a carriage return' '01\r00000000000000\n'
    stops "a carriage return at the end" 'line 1: byte 17 is 0d, a carriage return' "$p\\r"
    stops "a carriage return too many" 'line 1: byte 17 is 0d, a carriage return' "$p\\r\\r\\n"
    stops "lines that carriage returns end" 'line 1: byte 17 is 0d, a carriage return' "$p\\r$p\\r"
    takes "lines that both end" "$p # p\\r\\n\\r\\n$p\\r\\n" "$p" "$p"
}

control_bytes() {
    stops "a NUL byte" 'line 2: byte 3 is 00, a NUL byte$' '# p\n01\00000000000000000\n'
    stops "a NUL byte in a comment" 'line 1: byte 4 is 00, a NUL byte$' '# p\000\n0100000000000000\n'
    stops "a form feed" 'line 1: byte 1 is 0c, a form feed' '\f0100000000000000\n'
    stops "a vertical tab in a comment" 'line 1: byte 3 is 0b, a vertical tab' '# \v\n'
    stops "an escape in a comment" 'line 1: byte 3 is 1b, an escape' '# \033[31mred\n'
    stops "a delete in a comment" 'line 1: byte 3 is 7f, a delete' '# \177\n'
    stops "control-Z at the end" 'line 2: byte 1 is 1a, a control-Z' '0100000000000000\n\032'
    stops "another control byte" 'line 1: byte 1 is 05, a control character' '\005'
}

utf8_text() {
    stops "a no-break space in a row" 'line 1: byte 3 is c2, no ASCII' '01\302\24000000000000000\n'
    stops "Latin 1 in a comment" 'line 2: from byte 6 on stands e9 0a, and there the comment is no UTF-8' '#\n# caf\351\n'
    stops "a byte that begins nothing" 'line 1: byte 2 is 80, and there' '#\200\n'
    stops "a character in too many bytes" 'line 1: byte 2 is c0, and there' '#\300\200\n'
    stops "a character in three, for two" 'line 1: from byte 2 on stands e0 9f, and there' '#\340\237\277\n'
    stops "half a pair" 'line 1: from byte 2 on stands ed a0, and there' '#\355\240\200\n'
    stops "a character above the last" 'line 1: from byte 2 on stands f4 90, and there' '#\364\220\200\200\n'
    stops "a character cut at the end" 'line 1: from byte 3 on stands e2 82, and there the file ends within' '# \342\202'
    stops "a control character of two bytes" 'line 1: from byte 2 on stands c2 85, a control' '#\302\205\n'
    stops "a line separator" 'line 1: from byte 2 on stands e2 80 a8, a line or' '#\342\200\250\n'
    takes "UTF-8 in comments" '0100000000000000 # Gr\303\266\303\237e \342\200\223 \360\237\232\252\302\240\364\217\277\277\n' '0100000000000000'
}

marks_and_encodings() {
    local text='0\0001\0000\0000\000\n\000' mark='begins with ef bb bf, a UTF-8 byte order mark; save it without'
    stops "a byte order mark" "line 1: the file $mark" '\357\273\2770100000000000000\n'
    stops "a byte order mark before a comment" "line 1: the file $mark" '\357\273\277# p\n'
    stops "a byte order mark in the middle" 'line 2: byte 1 is ef, with which a UTF-8 byte order mark begins' '#\n\357\273\277#\n'
    stops "UTF-16 with a mark" 'line 1: the file begins with ff fe: it is UTF-16; save it as' "\\377\\376$text"
    stops "UTF-16 with the other mark" 'line 1: the file begins with fe ff: it is UTF-16' "\\376\\377\\000$text"
    stops "UTF-16" 'line 1: the file begins with 30 00: it is UTF-16' "$text"
    stops "UTF-16, the other way" 'line 1: the file begins with 00 30: it is UTF-16' "\\000$text"
    stops "UTF-32 with a mark" 'line 1: the file begins with ff fe 00 00: it is UTF-32' '\377\376\000\0000\000\000\000'
    stops "UTF-32, the other way" 'line 1: the file begins with 00 00 00 30: it is UTF-32' '\000\000\0000\000\000\0001'
    stops "NUL bytes alone" 'line 1: byte 1 is 00, a NUL byte' '\000\000\000\000\000'
}

# What a byte may do, by its number: stop ./solve, or be taken away, or stand in the row. The rule once more, in other words.
rule() { # NUMBER CONTEXT
    if [ "$2" = comment ]; then
        if [ "$1" -eq 9 ] || [ "$1" -eq 10 ] || { [ "$1" -ge 32 ] && [ "$1" -le 126 ]; }; then echo gone; else echo stop; fi
    else
        case $1 in
        9 | 10 | 32 | 35) echo gone ;;
        *) if [ "$1" -gt 32 ] && [ "$1" -lt 127 ]; then echo row; else echo stop; fi ;;
        esac
    fi
}

# A byte behind the first row's digits, or in its comment, and a space behind it.
one_byte() { # NUMBER CONTEXT
    local p=0100000000000000 byte
    byte=\\$(printf %03o "$1")
    if [ "$2" = row ]; then bytes "$p$byte \\n$p\\n"; else bytes "$p # $byte \\n$p\\n"; fi
    case $(rule "$1" "$2") in
    stop)
        expect "byte $1, $2" 2 /dev/null "sheet, line 1: .* \(is\|stands\) $(printf %02x "$1")[, ]" ./solve --lines "$work/sheet"
        return
        ;;
    gone) want "$p" "$p" ;;
    row) head -n 1 "$work/sheet" | tr -d ' ' >"$work/want" && echo "$p" >>"$work/want" ;;
    esac
    expect "byte $1, $2" 0 "$work/want" '^solve: 2 rows$' ./solve --lines "$work/sheet"
}

every_byte() {
    local number
    for number in {0..255}; do
        one_byte "$number" row
        one_byte "$number" comment
    done
}

large_sheets() {
    yes '# no row' | head -c 1048576 >"$work/sheet"
    : >"$work/want"
    expect "the largest file" 0 "$work/want" '^solve: 0 rows$' ./solve --lines "$work/sheet"
    yes '# no row' | head -c 1048577 >"$work/sheet"
    expect "a larger file" 2 /dev/null 'has more than 1,048,576 bytes' ./solve "$work/sheet"
    expect "a file without an end" 2 /dev/null '/dev/zero has more than 1,048,576 bytes' ./solve /dev/zero
    head -c 1000000 /dev/zero | tr '\0' a >"$work/sheet"
    want 'refused 20 0'
    expect "a row of a million digits" 1 "$work/want" 'it has 1000000 digits, not 16' ./solve "$work/sheet"
    yes 0100000000000000 | head -n 257 >"$work/sheet"
    want 'refused 2 0'
    expect "257 rows" 1 "$work/want" 'the sheet has 257 rows, and 256 are the most' ./solve "$work/sheet"
}

# A sheet with blanks, carriage returns, no line feed at its end, and an unknown that no clause names; from standard input, too.
odd_sheets() {
    bytes ' 01 00 0000 0000 0000 # p\r\n\t0100000000000000 # q\n#\n\r\n1000 0000 00000000'
    want '0 0 1' '1 0 1'
    solver 'echo s SATISFIABLE; echo v -2 1 0'
    expect "variables left out" 0 "$work/want" 'row 1    false         q' env SOLVER="$work/solver" ./solve "$work/sheet"
    also "variables left out" '^solve: 3 rows$'
    expect "standard input" 0 "$work/want" 'row 0    false         p' env SOLVER="$work/solver" bash -c "./solve - <'$work/sheet'"
    want 0100000000000000 0100000000000000 1000000000000000
    expect "the bare lines" 0 "$work/want" '^solve: 3 rows$' ./solve --lines "$work/sheet"
    expect "the bare lines of standard input" 0 "$work/want" '^solve: 3 rows$' bash -c "./solve --lines - <'$work/sheet'"
    expect "bare lines of nothing" 2 /dev/null '^usage: ' ./solve --lines
    expect "standard input that is closed" 2 /dev/null 'standard input is closed' bash -c './solve - <&-'
    bytes 0100000000000000
    want '0 1 1'
    expect "one row" 0 "$work/want" '^solve: 1 row$' ./solve "$work/sheet"
}

# What is shown of rows and comments: one line each, cut, printable.
shown_in_brief() {
    local long
    long=$(printf 'x%.0s' {1..500})
    sheet "01 # a$(printf '\t')b  c$(printf '\t')" "01 # $long"
    want 'refused 20 0'
    expect "tabs in a comment" 1 "$work/want" '^solve:     01  # a b  c$' ./solve "$work/sheet"
    sheet "$long # $long"
    expect "a long row" 1 "$work/want" '^solve:     x\{60\} \.\.  # x\{60\} \.\.$' ./solve "$work/sheet"
    bytes '%s # %s\303\266\303\266' 01 "${long:0:59}"
    expect "a comment cut between characters" 1 "$work/want" "# x\{59\}$(printf '\303\266') \.\.\$" ./solve "$work/sheet"
    sheet "0100000000000000 # p$(printf '\t')or$(printf '\t')so" 0100000000000000 1100000000010000 '1000000200000000 #' '1000000300000000 # the last'
    want '0 1 1' '1 1 1'
    expect "comments of settings" 0 "$work/want" '^    row 0    true          p or so$' ./solve "$work/sheet"
    also "an unknown without a comment" '^    row 1    true          $'
    also "a row with a comment" '^    row 4    true          the last$'
    lines_said "rows without a comment" 6
}

exact_values() {
    expect "values of the mirror" 0 examples/mirror.expected '^    row 6    41/4          6: the staleness$' ./solve examples/mirror.sheet
    also "an unknown's value" '^    row 0    6/4           poll interval in seconds'
    also "a whole number" '^    row 1    3             3 stations$'
    also "a Boolean's value" '^    row 8    false         8: staleness > limit$'
    lines_said "a line a row" 20
    expect "values without unknowns" 0 /dev/null '^    row 1    2/4           1: 2/4$' ./solve examples/halves.sheet
    expect "a negative value" 0 examples/quarter.expected '^    row 0    -1/4          what to add, in quarters$' ./solve examples/quarter.sheet
}

# That a last row is refused, with a reason. The rows before it are a Boolean unknown and a number.
refuses() { # NUMBER PATTERN ROW...
    sheet '0100000000000000  # p' '0202000000000001  # n' "${@:3}"
    want "refused $1 $(($# - 1))"
    expect "refusal $1 of ${*: -1}" 1 "$work/want" "$2" ./solve "$work/sheet"
    also "refusal $1 of ${*: -1}, the row" "^solve: row $(($# - 1)) (line $# of the sheet): "
}

refusals_of_a_row() {
    refuses 3 'there is no kind 0f: the kinds are' 0f00000000000000
    refuses 4 'p is 3, and kind 10 (not x) has no use for it' 1003000000000000
    refuses 4 'z is 255, and kind 11 (x and y) has no use for it' 11000000000000ff
    refuses 4 'y is 7, and kind 02 (a natural unknown) has no use for it' 0202000000070001
    refuses 5 'x, the constant, is 2, and must be from 0 to 1' 0000000200000000
    refuses 5 "p, a natural's number of bits, is 32, and must be from 1 to 31" 0220000000000001
    refuses 5 "p, an integer's number of bits, is 33, and must be from 1 to 32" 0321000000000001
    refuses 5 "p, an integer's number of bits, is 0, and" 0300000000000001
    refuses 5 'z, the denominator, is 0, and must be from 1 to 4,096' 0400000000010000
    refuses 5 'z, the denominator, is 4097, and must be' 0220000000001001
    also "both fields" "p, a natural's number of bits, is 32"
    refuses 6 'y names row 2, and must name a row before row 2' 1100000000020000
    refuses 6 'z names row 300, and must name a row before row 2' 230000000001012c
    refuses 7 'x names row 1, a number, and must name a Boolean' 1000000100000000
    refuses 7 'y names row 0, a Boolean, and must name a number' 2000000100000000
    refuses 7 'x names row 2, a number, and must name a Boolean' 2000000100010000 1000000200000000
    refuses 8 'the least common multiple of their denominators: one denominator for both helps' \
        0202000000001000 0202000000000fff 2000000200030000
    refuses 8 'a product has both denominators multiplied' 0202000000000041 0202000000000041 2200000200030000
    refuses 9 'fewer bits in what it is made of help' 0320000000000001 2200000200020000
    refuses 10 'it is x + y; the last row is what must be true' 2000000100010000
}

refusals_of_digits() {
    refuses 20 'it has 15 digits, not 16$' 010000000000000
    refuses 20 'it has 17 digits, not 16$' 01000000000000000
    refuses 20 'the A at place 15 is upper case: write a to f' 01000000000000A0
    refuses 20 "the character 'g' at place 5 is no digit" 0100g00000000000
    refuses 20 'it has 18 characters, not 16' 0x0100000000000000
    also "a character, too" "the character 'x' at place 2 is no digit"
    sheet '# no rows' ''
    want 'refused 1 0'
    expect "no rows" 1 "$work/want" 'the sheet has no rows' ./solve "$work/sheet"
}

# A row of each kind that is accepted behind p and n, but for its fields without a use.
sound_rows=(0000000100000000 0100000000000000 0202000000000001 0302000000000001 0400000000010001 1000000000000000 1100000000000000
    1200000000000000 1300000000000000 1400000000000000 2000000100010000 2100000100010000 2200000100010000 2300000000010001
    3000000100010000 3100000100010000)

# Every field of every kind: where the programs refuse it for having no use, the words name it, and there are 34 such.
fields_without_a_use() {
    local row place refused=0
    for row in "${sound_rows[@]}"; do
        for place in p:3 x:7 y:11 z:15; do
            sheet 0100000000000000 0202000000000001 "${row:0:${place#*:}}2${row:$((${place#*:} + 1))}"
            ./solve "$work/sheet" >"$work/out" 2>"$work/err"
            grep -qx 'refused 4 2' "$work/out" || continue
            refused=$((refused + 1))
            also "${place%:*} of $row" "^solve:     ${place%:*} is 2, and kind ${row:0:2} (.*) has no use for it$"
        done
    done
    cases=$((cases + 1))
    [ "$refused" -eq 34 ] || fail "fields without a use: $refused, not 34"
}

# Refusal 13 with the rows that cost most: three that bring halves and thirds to sixths, each by two products.
rows_that_cost() {
    sheet '021f000000000002  # a' '021f000000000003  # b' '2000000000010000  # their sum' '3100000000010000  # equal' \
        '3000000000010000  # greater' '1100000300040000  # both'
    ./solve "$work/sheet" >"$work/want" 2>/dev/null
    expect "the rows that cost most" 1 "$work/want" '^solve: the clauses need [0-9,]* slots, and the programs have 16,384$' ./solve "$work/sheet"
    grep -Ex 'refused 13 [0-9]+' "$work/want" >/dev/null || fail "the rows that cost most: not refused 13"
    also "the first" '^solve:     row 2          81,256 slots  their sum$'
    also "what helps" 'what usually helps: one denominator throughout'
    lines_said "three rows, no more" 7
    cases=$((cases + 1))
    [ "$(grep -o 'row [0-9]' "$work/err" | tr '\n' ' ')" = "row 2 row 4 row 3 " ] || fail "the rows that cost most: other rows, or another order"
    expect "the dearest of the examples" 1 examples/long.expected '^solve:     row 2  *74,928 slots  2: their product$' ./solve examples/long.sheet
}

sheet_cases() {
    carriage_returns
    control_bytes
    utf8_text
    marks_and_encodings
    every_byte
    large_sheets
    odd_sheets
    shown_in_brief
    exact_values
    refusals_of_a_row
    refusals_of_digits
    fields_without_a_use
    rows_that_cost
}
