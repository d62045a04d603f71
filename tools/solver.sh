# The bought solver, for ./solve: finding it, running it and judging how it ended. To be sourced.

# Sets `solver`. Of what is missing, only the four that the help names are installed.
find_solver() {
    local words name
    read -ra words <<<"${SOLVER:-}"
    solver=${words[*]}
    for name in cadical minisat picosat cryptominisat5; do
        if [ -z "$solver" ] && type -P "$name" >/dev/null; then solver=$name; fi
    done
    solver=${solver:-cadical}
    [ "$solver" != cryptominisat ] || solver=cryptominisat5
    name=${solver%% *}
    ! type -P -- "$name" >/dev/null || return 0
    case $name in
    cadical | minisat | picosat) install_solver "$name" "$name" ;;
    cryptominisat5) install_solver "$name" cryptominisat ;;
    *) stop 4 "there is no solver $(shown "$name")" ;;
    esac
}

install_solver() { # COMMAND PACKAGE
    say "the solver $1 is not here; trying to install Debian's package $2"
    need "$1" "$2" >/dev/null ||
        stop 4 "$1 could not be installed. Install a solver, as by 'sudo apt-get install cadical', or name one with SOLVER="
}

# Runs the solver on $work/clauses.cnf; its answer goes to $work/answer, its exit status to `status`.
call_solver() {
    local words output=$work/answer most=$((16 << 20)) began=$SECONDS
    read -ra words <<<"$solver"
    if [ "$solver" = minisat ]; then
        # minisat writes its model to a file only
        words=(minisat -verb=0 '{}' "$work/answer")
        output=$work/said
    fi
    : >"$work/answer"
    run_solver "$output" "$((most + 1))" "${words[@]//'{}'/$work/clauses.cnf}"
    [ "$(wc -c <"$work/answer")" -le "$most" ] || stop 4 "$solver wrote more than $(commas "$most") bytes, which is no answer"
    judge_end "$((SECONDS - began))"
}

# A solver may write without end, die, or leave processes behind. So pipes take no more than so many bytes of its output, the shell's own
# word on a death is dropped, and `timeout` gives it a process group, which is ended with it. `running` is that group while it runs.
run_solver() { # OUTPUT BYTES COMMAND...
    local output=$1 bytes=$2 reader
    shift 2
    mkfifo "$work/out" "$work/err" || stop 4 "no pipes can be made for $solver"
    head -c "$bytes" <"$work/out" >"$output" 2>/dev/null &
    reader=$!
    tail -c 4096 <"$work/err" >"$work/complaint" 2>/dev/null &
    (
        # where the answer is a file that the solver writes itself
        [ "$output" = "$work/answer" ] || ulimit -S -f "$((bytes / 1024 + 1))"
        exec timeout -k 2 "$limit" "$@"
    ) <"$work/clauses.cnf" >"$work/out" 2>"$work/err" &
    running=$!
    { wait "$running"; } 2>/dev/null
    status=$?
    kill -KILL -- "-$running" 2>/dev/null
    running=
    wait "$reader" || stop 4 "the answer of $solver could not be kept: is there room in $work?"
    wait
}

# Stops where the solver's end was no answer's.
judge_end() { # SECONDS
    case $status in
    0 | 10 | 20) return ;;
    124 | 137) [ "$1" -lt "$limit" ] || stop 124 "$solver had no answer within $limit seconds; TIMEOUT=SECONDS gives it more" ;;
    esac
    if [ "$status" -gt 128 ] && [ "$status" -le 192 ]; then
        stop 4 "$solver died of signal $((status - 128)) ($(kill -l "$status" 2>/dev/null))$(last_words)"
    fi
    stop 4 "$solver failed with status $status$(last_words)"
}
