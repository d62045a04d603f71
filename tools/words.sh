# Refusals in words, for ./solve. To be sourced. A refusal is the programs' alone: what is said here only explains it, from the row's digits.

declare -A meaning=(
    [00]="a Boolean constant" [01]="a Boolean unknown" [02]="a natural unknown" [03]="an integer unknown" [04]="a number constant"
    [10]="not x" [11]="x and y" [12]="x or y" [13]="x implies y" [14]="x iff y"
    [20]="x + y" [21]="x - y" [22]="x times y" [23]="if x then y else z" [30]="x > y" [31]="x = y"
)
declare -A unused=(
    [00]="p y z" [01]="p x y z" [02]="x y" [03]="x y" [04]="p" [10]="p y z" [11]="p z" [12]="p z" [13]="p z" [14]="p z"
    [20]="p z" [21]="p z" [22]="p z" [23]="p" [30]="p z" [31]="p z"
)
# The fields that name a row, each with the sort that this row must have.
declare -A operands=(
    [10]="x:Boolean" [11]="x:Boolean y:Boolean" [12]="x:Boolean y:Boolean" [13]="x:Boolean y:Boolean" [14]="x:Boolean y:Boolean"
    [20]="x:number y:number" [21]="x:number y:number" [22]="x:number y:number" [23]="x:Boolean y:number z:number"
    [30]="x:number y:number" [31]="x:number y:number"
)

# A row's field, in decimal.
field() { # FIELD ROW
    case $1 in
    p) echo "$((16#${2:2:2}))" ;;
    x) echo "$((16#${2:4:4}))" ;;
    y) echo "$((16#${2:8:4}))" ;;
    z) echo "$((16#${2:12:4}))" ;;
    esac
}

row_at() { sed -n "$(($1 + 1))p" "$work/lines"; } # ROW

sort_of() { # DIGITS
    case $1 in
    0[234]* | 2*) echo number ;;
    *) echo Boolean ;;
    esac
}

# Refusal 4: the fields that are not zero, one a line.
of_unused() { # DIGITS
    local kind=${1:0:2} name
    for name in ${unused[$kind]}; do
        [ "$(field "$name" "$1")" -eq 0 ] || echo "$name is $(field "$name" "$1"), and kind $kind (${meaning[$kind]}) has no use for it"
    done
}

# Says so if a field is out of its range.
in_range() { # FIELD LEAST GREATEST WHAT DIGITS
    local found
    found=$(field "$1" "$5")
    [ "$found" -lt "$2" ] || [ "$found" -gt "$3" ] || return
    echo "$1, $4, is $found, and must be from $2 to $(commas "$3")"
}

# Refusal 5: the fields that are out of range.
of_range() { # DIGITS
    case $1 in
    00*) in_range x 0 1 "the constant" "$1" ;;
    02*) in_range p 1 31 "a natural's number of bits" "$1" ;;
    03*) in_range p 1 32 "an integer's number of bits" "$1" ;;
    esac
    case $1 in
    0[234]*) in_range z 1 4096 "the denominator" "$1" ;;
    esac
}

# Refusal 6: the fields that name no earlier row.
of_references() { # DIGITS ROW
    local pair named
    for pair in ${operands[${1:0:2}]:-}; do
        named=$(field "${pair%:*}" "$1")
        [ "$named" -lt "$2" ] || echo "${pair%:*} names row $named, and must name a row before row $2"
    done
}

# Refusal 7: the fields that name a row of the other sort.
of_sorts() { # DIGITS
    local pair named is
    for pair in ${operands[${1:0:2}]:-}; do
        named=$(field "${pair%:*}" "$1")
        is=$(sort_of "$(row_at "$named")")
        [ "$is" = "${pair#*:}" ] || echo "${pair%:*} names row $named, a $is, and must name a ${pair#*:}"
    done
}

# Refusal 8: where the denominator comes from.
of_denominators() { # DIGITS
    case $1 in
    22*) echo "a product has both denominators multiplied: a smaller one in x or y helps, as 1 where a number is whole" ;;
    *) echo "two numbers are brought to the least common multiple of their denominators: one denominator for both helps" ;;
    esac
}

# Refusal 20: whether length, case or a character is wrong.
of_digits() { # TEXT
    local start=${1:0:64} good unit=digits at
    good=${start%%[!0-9a-f]*}
    [ "$good" = "$start" ] || unit=characters
    at=$((${#good} + 1))
    [ ${#1} -eq 16 ] || echo "it has ${#1} $unit, not 16"
    case ${start:${#good}:1} in
    '') ;;
    [A-F]) echo "the ${start:${#good}:1} at place $at is upper case: write a to f" ;;
    *) echo "the character '${start:${#good}:1}' at place $at is no digit: they are 0 to 9 and a to f" ;;
    esac
}

# What a row's digits show of its refusal, one reason a line; nothing where they don't.
reasons() { # NUMBER DIGITS ROW
    local kind=${2:0:2}
    [ "$1" != 20 ] || of_digits "$2"
    [[ $2 =~ ^[0-9a-f]{16}$ ]] || return
    [ "$1" != 3 ] || echo "there is no kind $kind: the kinds are 00 to 04, 10 to 14, 20 to 23, 30 and 31"
    [ -n "${meaning[$kind]:-}" ] || return
    case $1 in
    4) of_unused "$2" ;;
    5) of_range "$2" ;;
    6) of_references "$2" "$3" ;;
    7) of_sorts "$2" ;;
    8) of_denominators "$2" ;;
    9) echo "fewer bits in what it is made of help, and one denominator, as a number that is brought to another takes more bits" ;;
    10) echo "it is ${meaning[$kind]}; the last row is what must be true" ;;
    esac
}

# A refusal in words.
in_words() { # NUMBER PLACE
    case $1 in
    1) echo "the sheet has no rows" ;;
    2) echo "the sheet has $rows rows, and 256 are the most" ;;
    3) echo "its kind is unknown" ;;
    4) echo "a field without a use is not zero" ;;
    5) echo "a constant, a number of bits or a denominator is out of range" ;;
    6) echo "a reference does not name an earlier row" ;;
    7) echo "an operand is of the wrong sort, Boolean or number" ;;
    8) echo "a denominator above 4,096 would be needed" ;;
    9) echo "more than 48 bits would be needed" ;;
    10) echo "the last row is a number, not a constraint" ;;
    13) echo "the clauses need $(commas "$2") slots, and the programs have 16,384" ;;
    19) echo "the model of $solver makes clause $2 false; the solver is wrong" ;;
    20) echo "it is not 16 hexadecimal digits, lower case" ;;
    *) echo "this should not happen here; document 01 says what $1 means" ;;
    esac
}

# Passes a refusal on, says it in words and ends.
refuse() { # FILE
    local number place
    [[ $(cat "$1") =~ ^refused\ ([0-9]+)\ ([0-9]+)$ ]] || stop 3 "a refusal of the programs can't be read"
    number=${BASH_REMATCH[1]} place=${BASH_REMATCH[2]}
    give cat "$1"
    case $number in
    [3-9] | 10 | 20) refuse_row "$number" "$place" ;;
    13) refuse_slots "$place" ;;
    *) say "$(in_words "$number" "$place")" ;;
    esac
    case $number in
    19 | 21) exit 4 ;;
    *) exit 1 ;;
    esac
}

refuse_row() { # NUMBER ROW
    local digits line note reason
    IFS=$'\t' read -r digits line note < <(sed -n "$(($2 + 1))p" "$work/rows")
    say "row $2 (line $line of the sheet): $(in_words "$1" "$2")"
    say "    $(shown "$digits")${note:+  # $note}"
    while read -r reason; do
        say "    $reason"
    done < <(reasons "$1" "$digits" "$2")
}

# Says which rows cost most, as far as the program that knows it runs.
refuse_slots() { # NEEDED
    local row slots digits line note
    say "$(in_words 13 "$1")"
    if (run cost "$work/lines" "$work/costs" "${costs[@]}"); then
        say "the rows that cost most:"
        while read -r row slots; do
            IFS=$'\t' read -r digits line note < <(sed -n "$((row + 1))p" "$work/rows")
            say "$(printf '    row %-3d  %12s slots  %s' "$row" "$(commas "$slots")" "$note")"
        done < <(grep -Ex '[0-9]+ [1-9][0-9]*' "$work/costs" | sort -k 2,2nr -k 1,1n | head -n 3)
    fi
    say "what usually helps: one denominator throughout, as each change of denominator is a whole product; then fewer bits, fewer rows"
}
