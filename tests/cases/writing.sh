# Cases of tests/solve: streams that are full or closed, and texts that are cut off on the way. To be sourced.

# That an answer that can't be written is status 5.
unwritten() { # NAME COMMAND
    expect "$1, no room" 5 /dev/null 'could not be written' bash -c "$2 >/dev/full"
    expect "$1, closed" 5 /dev/null 'standard output is closed\|could not be written' bash -c "$2 >&-"
    expect "$1, nobody reads" 5 /dev/null 'could not be written' bash -c "{ sleep 0.1; $2; } | true; exit \${PIPESTATUS[0]}"
}

full_output() {
    unwritten "settings" './solve examples/mirror.sheet'
    unwritten "none claimed" './solve examples/both.sheet'
    unwritten "a refusal" './solve examples/wide.sheet'
    unwritten "help" './solve --help'
    unwritten "the version" './solve --version'
    unwritten "the bare lines" './solve --lines examples/both.sheet'
}

# The answer is the same if nobody can read what is said.
unheard() { # NAME STATUS EXPECTED COMMAND
    expect "$1, said to nobody" "$2" "$3" '' bash -c "$4 2>/dev/full"
    expect "$1, standard error closed" "$2" "$3" '' bash -c "$4 2>&-"
    expect "$1, nobody listens" "$2" "$3" '' bash -c "$4 2> >(exec true)"
}

full_error() {
    unheard "settings" 0 examples/mirror.expected './solve examples/mirror.sheet'
    unheard "none claimed" 20 examples/both.expected './solve examples/both.sheet'
    unheard "a refusal" 1 examples/long.expected './solve examples/long.sheet'
    expect "every stream closed but one" 0 examples/mirror.expected '' bash -c './solve examples/mirror.sheet <&- 2>&-'
}

# Runs ./solve with commands in place of the programs; those not named print what they should for examples/above-two.sheet.
stands_in() { # NAME STATUS PATTERN VARIABLE=COMMAND
    local good=$work/good
    expect "$1" "$2" /dev/null "$3" env SOLVER="$good/solver" CLAUSES="$good/clauses" SETTINGS="$good/settings" VALUES="$good/values" \
        COSTS="$good/costs" "$4" ./solve examples/above-two.sheet
}

# Programs that print these texts, whatever they read.
good_programs() {
    ./solve --lines examples/above-two.sheet >"$work/lines" 2>/dev/null
    printf 'p cnf 9 2\n1 0\n9 0\n' >"$work/clauses.txt"
    printf '0 3 1\n' >"$work/settings.txt"
    printf '0 3 1\n1 2 1\n2 1 1\n' >"$work/values.txt"
    local name
    for name in clauses settings values; do command_of "good/$name" "cat >/dev/null; cat '$work/$name.txt'"; done
    command_of good/costs 'cat >/dev/null; echo nothing'
    command_of good/solver 'echo s SATISFIABLE; echo v 1 2 3 4 5 6 7 8 9 0; exit 10'
}

cut_texts() {
    good_programs
    want '0 3 1'
    expect "programs that print texts" 0 "$work/want" 'row 0    3  ' env SOLVER="$work/good/solver" CLAUSES="$work/good/clauses" \
        SETTINGS="$work/good/settings" VALUES="$work/good/values" COSTS=false ./solve examples/above-two.sheet
    command_of cut 'cat >/dev/null; printf "p cnf 9 2\n1 0\n"'
    stands_in "a clause is missing" 3 'the text of the clause program is cut off' CLAUSES="$work/cut"
    command_of cut 'cat >/dev/null; printf "p cnf 9 2\n1 0\n9"'
    stands_in "a clause is cut" 3 'the text of the clause program is cut off' CLAUSES="$work/cut"
    stands_in "no clauses" 3 'the clause program wrote no clauses' CLAUSES=true
    stands_in "settings cut" 3 'the text of the settings program is cut off' SETTINGS='printf 0'
    stands_in "settings missing" 3 "don't agree" SETTINGS=true
    stands_in "a claim that the solver did not make" 3 'and .* gave a model' SETTINGS='echo none claimed'
    stands_in "a refusal cut" 3 "a refusal of the programs can't be read" SETTINGS='echo refused 2'
    stands_in "values missing" 3 "don't agree" VALUES='echo 0 3 1'
    stands_in "values that are others" 3 "don't agree" VALUES="$work/good/settings"
    command_of cut 'cat >/dev/null; printf "0 2 1\n1 2 1\n2 1 1\n"'
    stands_in "another value" 3 "don't agree" VALUES="$work/cut"
    command_of cut 'cat >/dev/null; printf "0 3 1\n1 2 1\n2 0 1\n"'
    stands_in "a constraint that is false" 3 "don't agree" VALUES="$work/cut"
    stands_in "a program that fails" 3 'the clause program does not run' CLAUSES=false
    # shellcheck disable=SC2016
    command_of cut 'kill -SEGV $$'
    stands_in "a program that dies" 3 'the values program does not run$' VALUES="$work/cut"
    lines_said "a program that dies" 2
}

# What can't be said of a refusal does not change it.
unsaid_costs() {
    command_of good/clauses 'cat >/dev/null; echo refused 13 20000'
    want 'refused 13 20000'
    expect "costs that can't be said" 1 "$work/want" 'the cost program does not run' env CLAUSES="$work/good/clauses" SETTINGS=false VALUES=false \
        COSTS=false ./solve examples/above-two.sheet
    also "the refusal all the same" 'need 20,000 slots'
}

# A temporary folder in which files have room for so many KiB, the programs' own among them: no part of a text may be taken for all of it.
little_room() {
    local room
    for room in 1 2 4 8 16; do
        expect "room for $room KiB" 3 /dev/null '^solve: ' \
            bash -c "trap '' XFSZ; ulimit -f $room; ./solve examples/mirror-gate.sheet | cat; exit \${PIPESTATUS[0]}"
    done
}

writing_cases() {
    full_output
    full_error
    cut_texts
    unsaid_costs
    little_room
}
