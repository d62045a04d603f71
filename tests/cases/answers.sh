# Cases of tests/solve: what a solver may answer, and how it may fail. To be sourced.

# Answers to examples/above-two.sheet: 9 variables, one model, 1 2 3 4 5 -6 7 -8 9.
answer() { # NAME STATUS PATTERN LINES
    solver "$4"
    expect "$1" "$2" "$work/want" "$3" env SOLVER="$work/solver" ./solve examples/above-two.sheet
}

odd_answers() {
    want '0 3 1'
    answer "split lines" 0 'true of them' 'printf "c hello\nv 9 -8 7\nc\nv 5 4 -6 3\ns SATISFIABLE\nv 2 1\nv 0\n"; exit 10'
    answer "minisat's form" 0 'true of them' 'printf "SAT\n1 2 3 4 5 -6 7 -8 9 0\n"'
    answer "status 0" 0 'true of them' 'echo s SATISFIABLE; echo v 1 2 3 4 5 -6 7 -8 9 0'
    answer "blanks at the ends" 0 'true of them' 'printf "s SATISFIABLE \nv 1 2 3 4 5 -6 7 -8 9 0\t \n"; exit 10'
    answer "a verdict said twice" 0 'true of them' 'printf "SATISFIABLE\nSAT\n1 2 3 4 5 -6 7 -8 9 0\n"; exit 10'
    answer "processes left behind" 0 'true of them' 'sleep 60 & echo s SATISFIABLE; echo v 1 2 3 4 5 -6 7 -8 9 0'
    # shellcheck disable=SC2016
    solver 'grep -q "^p cnf 9 26" "$2" && printf "s SATISFIABLE\r\nv 1 2 3 4 5 -6 7 -8 9 0\r\n"'
    expect "a file's name" 0 "$work/want" 'true of them' env SOLVER="$work/solver --read {}" ./solve examples/above-two.sheet
    want 'none claimed'
    answer "a false claim" 20 'claims that no settings' 'echo s UNSATISFIABLE; exit 20'
    answer "a false claim with status 0" 20 'claims that no settings' 'echo s UNSATISFIABLE'
    answer "a false claim in minisat's form" 20 'claims that no settings' 'echo UNSAT; exit 20'
    want 'refused 19 4'
    answer "a false model" 4 'makes clause 4 false' 'echo s SATISFIABLE; echo v 1 2 3 -4 5 -6 7 -8 9 0; exit 10'
}

contradictions() {
    : >"$work/want"
    answer "UNSATISFIABLE with status 10" 4 'contradicts itself: it says UNSATISFIABLE, and its status 10' 'echo s UNSATISFIABLE; exit 10'
    answer "SATISFIABLE with status 20" 4 'contradicts itself: it says SATISFIABLE, and its status 20' \
        'echo s SATISFIABLE; echo v 1 2 3 4 5 -6 7 -8 9 0; exit 20'
    answer "UNSAT with status 10" 4 'contradicts itself' 'echo UNSAT; exit 10'
    answer "SAT with status 20" 4 'contradicts itself' 'echo SAT; echo 1 2 3 4 5 -6 7 -8 9 0; exit 20'
    answer "both verdicts" 4 'line 1 says SATISFIABLE, line 3 UNSATISFIABLE' \
        'echo s SATISFIABLE; echo v 1 2 3 4 5 -6 7 -8 9 0; echo s UNSATISFIABLE'
    answer "both verdicts, the other way" 4 'line 2 says SATISFIABLE, line 1 UNSATISFIABLE' 'echo s UNSATISFIABLE; echo SAT; exit 20'
    answer "UNSATISFIABLE with values" 4 'it says UNSATISFIABLE, and line 2 is for values' 'echo s UNSATISFIABLE; echo v 1 2 0; exit 20'
    answer "values, then UNSATISFIABLE" 4 'and line 1 is for values' 'echo v 0; echo s UNSATISFIABLE'
    answer "UNSAT with values" 4 'and line 2 is for values' 'echo UNSAT; echo 1 2 0; exit 20'
}

# minisat itself writes its answer to the file that it is told, and here is one of our own.
by_minisat() { # NAME STATUS PATTERN LINES
    command_of own/minisat "$4"
    expect "minisat, $1" "$2" "$work/want" "$3" env SOLVER=minisat PATH="$work/own:$PATH" ./solve examples/above-two.sheet
}

# shellcheck disable=SC2016
answers_of_minisat() {
    want '0 3 1'
    by_minisat "a model" 0 'true of them' 'echo SATISFIABLE; printf "SAT\n1 2 3 4 5 -6 7 -8 9 0\n" >"$3"; exit 10'
    : >"$work/want"
    by_minisat "UNSAT with status 10" 4 'contradicts itself' 'echo UNSAT >"$3"; exit 10'
    by_minisat "SAT with status 20" 4 'contradicts itself' 'printf "SAT\n1 2 3 4 5 -6 7 -8 9 0\n" >"$3"; exit 20'
    by_minisat "UNSAT with values" 4 'and line 2 is for values' 'printf "UNSAT\n1 2 0\n" >"$3"; exit 20'
    by_minisat "no answer" 4 'it is empty' 'exit 10'
    by_minisat "an answer without end" 4 'wrote more than 16,777,216 bytes' 'yes c >"$3"'
    lines_said "minisat, an answer without end" 2
}

unreadable_answers() {
    : >"$work/want"
    answer "nonsense" 4 'its line 2 is "good day"' 'echo s SATISFIABLE; echo good day'
    answer "unprintable nonsense" 4 'its line 1 is "?\[2Jgone?"' 'printf "\033[2Jgone\001\n"'
    answer "long nonsense" 4 'its line 1 is "x\{60\}"$' 'printf "x%0500d\n" 0 | tr 0 x'
    answer "nothing" 4 'it is empty' ':'
    answer "no verdict" 4 'neither SATISFIABLE nor' 'echo c; echo v 1 0'
    answer "unknown" 4 'it says that it found none (s UNKNOWN)' 'echo s UNKNOWN'
    answer "no model" 4 'gives no model' 'echo s SATISFIABLE; echo v 0'
    answer "cut off" 4 'do not end with 0' 'echo s SATISFIABLE; printf "v 1 2 3 4 5 -6 7 -8"; exit 10'
    answer "a variable too many" 4 'variable 10, and there are 9' 'echo s SATISFIABLE; echo v 10 0'
    answer "true and false" 4 'variable 2 true and false' 'echo s SATISFIABLE; echo v 2 -2 0'
    answer "a word" 4 '"x1" stands for a variable' 'echo s SATISFIABLE; echo v x1 0'
}

# The death of a solver is one line besides the number of rows.
dies() { # NAME PATTERN LINES
    answer "$1" 4 "$2" "$3"
    lines_said "$1" 2
}

# shellcheck disable=SC2016
failing_solvers() {
    : >"$work/want"
    dies "fails" 'failed with status 3; its last words: no licence$' 'echo no licence >&2; exit 3'
    dies "fails in colour" 'its last words: ?\[31mno x\{52\} \.\.$' 'printf "\033[31mno %0500d" 0 | tr 0 x >&2; exit 3'
    dies "a segmentation fault" 'died of signal 11 (SEGV)$' 'kill -SEGV $$'
    dies "an abort" 'died of signal 6 (ABRT); its last words: assertion$' 'echo assertion >&2; kill -ABRT $$'
    dies "killed" 'died of signal 9 (KILL)$' 'kill -KILL $$'
    dies "dies within" 'failed with status 139\|died of signal 11' 'sh -c "kill -SEGV \$\$"; exit $?'
    dies "writes without end" 'wrote more than 16,777,216 bytes' 'yes c'
    printf '#!/no/such/shell\n' >"$work/solver"
    expect "can't be run" 4 /dev/null 'failed with status 127; its last words: timeout: ' env SOLVER="$work/solver" ./solve examples/both.sheet
    solver 'sleep 3; echo s UNSATISFIABLE'
    expect "out of time" 124 /dev/null 'no answer within 1 seconds' env TIMEOUT=1 SOLVER="$work/solver" ./solve examples/both.sheet
    solver 'trap "" TERM; sleep 9 & wait; wait; echo s UNSATISFIABLE'
    expect "out of time, and unwilling" 124 /dev/null 'no answer within 1 seconds' env TIMEOUT=1 SOLVER="$work/solver" ./solve examples/both.sheet
}

# A solver is ended with ./solve, and what it started with it.
# shellcheck disable=SC2016
ended_early() {
    local solve
    solver 'sleep 60 & echo $! >"$0.pid"; wait'
    cases=$((cases + 1))
    SOLVER=$work/solver ./solve examples/both.sheet >"$work/out" 2>"$work/err" &
    solve=$!
    soon test -s "$work/solver.pid"
    kill -TERM "$solve"
    wait "$solve"
    [ $? -eq 143 ] && fit && soon ended "$(cat "$work/solver.pid")" && return
    fail "ended early: another status than 143, or the solver runs on"
}

# Whether a process has ended, be it that nobody has asked for its status yet.
ended() { ! grep -qs '^State:[[:space:]]*[^XZ[:space:]]' "/proc/$1/status"; } # PROCESS

# Whether a command succeeds within ten seconds.
soon() { # COMMAND...
    for _ in {1..100}; do
        ! "$@" || return 0
        sleep 0.1
    done
    return 1
}

# Solvers that are missing. The apt-get here notes what it is asked for; root is who `id` says.
# shellcheck disable=SC2016
missing_solvers() {
    local path=$work/packages:$work/bare
    bare_path
    command_of packages/id 'echo 0'
    command_of packages/apt-get 'echo "$*" >>"$0.asked"; exit 100'
    ! type -P rt >/dev/null || ln -s "$(type -P rt)" "$work/packages/rt" # with it ./solve finds the emulator
    expect "no such file" 4 /dev/null 'there is no solver /no/solver' env SOLVER=/no/solver PATH="$path" ./solve examples/both.sheet
    expect "no such solver" 4 /dev/null 'there is no solver hello$' env SOLVER=hello PATH="$path" ./solve examples/both.sheet
    expect "a package of that name" 4 /dev/null 'there is no solver glucose$' env SOLVER='glucose {}' PATH="$path" ./solve examples/both.sheet
    expect "a word of the shell" 4 /dev/null 'there is no solver say$' env SOLVER=say PATH="$path" ./solve examples/both.sheet
    cases=$((cases + 1))
    [ ! -e "$work/packages/apt-get.asked" ] || fail "a package was asked for: $(cat "$work/packages/apt-get.asked")"
    expect "not to be had" 4 /dev/null 'picosat could not be installed' env SOLVER=picosat PATH="$path" ./solve examples/both.sheet
    cases=$((cases + 1))
    grep -q 'install .*picosat' "$work/packages/apt-get.asked" || fail "picosat was not asked for"
    solver 'echo s SATISFIABLE; echo v 1 2 3 4 5 -6 7 -8 9 0'
    command_of packages/apt-get "cp '$work/solver' '$work/packages/cryptominisat5'"
    want '0 3 1'
    expect "installed" 0 "$work/want" "trying to install Debian's package cryptominisat\$" \
        env SOLVER='cryptominisat5 --verb 0' PATH="$path" ./solve examples/above-two.sheet
}

answer_cases() {
    odd_answers
    contradictions
    answers_of_minisat
    unreadable_answers
    failing_solvers
    ended_early
    missing_solvers
}
