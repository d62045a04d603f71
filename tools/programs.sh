# The proved programs, for ./solve: building them where they are missing or of other sources, and running them. To be sourced.
programs=(clauses settings values costs)

built() {
    local name
    for name in "${programs[@]}"; do
        [ -x "$root/target/bin/$name" ] || return 1
    done
}

# Tells the sources and the files made of them from any others.
fingerprint() { # FILE...
    (
        cd "$root" || exit
        {
            find crates crates.txt -name out -prune -o -type f -print0 | sort -z | xargs -0 sha256sum
            sha256sum "$@"
        } 2>/dev/null | sha256sum
    )
}

fingerprint_programs() { fingerprint "${programs[@]/#/target/bin/}"; }

# Whether the programs are here, and are what tools/build last made of these sources.
up_to_date() { built && [ "$(cat "$root/target/solve.built" 2>/dev/null)" = "$(fingerprint_programs)" ]; }

# Says how it is known that programs which are not up to date are of other sources: by what was noted when they were built, else by the
# files' times. Says nothing if it is not known.
changed() {
    local name
    if [ -e "$root/target/solve.built" ]; then
        echo "the sources or the programs have changed since these were built"
        return
    fi
    for name in "${programs[@]}"; do
        [ -z "$(find "$root"/crates/*/* "$root/crates.txt" -name out -prune -o -newer "$root/target/bin/$name" -print -quit)" ] || {
            echo "the sources are younger than the programs"
            return
        }
    done
}

# Where nothing can be built, the programs that are here serve, unless they are known to be of other sources.
do_without_rt() { # REASON
    local why="the programs are not built yet"
    ! built || why=$(changed)
    [ -z "$why" ] || stop 3 "$why, and $1"
}

why_build() {
    local why
    if built; then
        why=$(changed)
        echo "${why:-nothing tells whether the programs are of these sources}: proving and building what changed (tools/build ${programs[*]})"
    else
        echo "first run: proving and building the programs (tools/build ${programs[*]}). This takes some minutes, once."
    fi
}

# Proves and builds the programs, unless they are up to date. rt itself knows what has to be proved again.
build() {
    local log=$root/target/solve.log
    ! up_to_date || return 0
    if ! command -v rt >/dev/null; then
        do_without_rt "the Rattle toolchain's command 'rt', which builds them, is not on the PATH"
        return
    fi
    if ! mkdir -p "$root/target" 2>/dev/null || [ ! -w "$root/target" ]; then
        do_without_rt "the folder $root/target can't be written"
        return
    fi
    say "$(why_build)"
    # the last cat: if nobody reads what rt says, that must not end rt
    (cd "$root" && tools/build "${programs[@]}") 2>&1 | tee "$log" |
        { grep --line-buffered '^rt: ' | grep --line-buffered -v 'unchanged since' >&2; cat >/dev/null; }
    [ "${PIPESTATUS[0]}" -eq 0 ] || stop 3 "the programs could not be built; $log says why"
    built || stop 3 "rt has built no programs; $log says what it did"
    fingerprint_programs >"$root/target/solve.built"
}

# Sets `clauses`, `settings`, `values` and `costs` to the words that run the programs.
find_programs() {
    local runner given=${CLAUSES:+1}${SETTINGS:+2}${VALUES:+3}${COSTS:+4}
    if [ "$given" = 1234 ]; then
        read -ra clauses <<<"$CLAUSES"
        read -ra settings <<<"$SETTINGS"
        read -ra values <<<"$VALUES"
        read -ra costs <<<"$COSTS"
        return
    fi
    [ -z "$given" ] || stop 2 "CLAUSES, SETTINGS, VALUES and COSTS go together: all four, or none"
    build
    find_runner
    clauses=("${runner[@]}" "$root/target/bin/clauses")
    settings=("${runner[@]}" "$root/target/bin/settings")
    values=("${runner[@]}" "$root/target/bin/values")
    costs=("${runner[@]}" "$root/target/bin/costs")
}

# Runs a program. Programs have no exit status for a write that failed, so each text must show by itself that it is whole; here, that its
# last line has an end.
run() { # NAME INPUT OUTPUT COMMAND...
    local name=$1 input=$2 output=$3
    shift 3
    { "$@" <"$input" >"$output" 2>"$work/complaint"; } 2>/dev/null || stop 3 "the $name program does not run$(last_words)"
    [ ! -s "$output" ] || [ -z "$(tail -c 1 "$output")" ] || stop 3 "the text of the $name program is cut off: is there room in $work?"
}

# What a command said last on its standard error.
last_words() {
    local words
    words=$(tail -n 1 "$work/complaint" | tr -d '\0')
    [ -z "$words" ] || echo "; its last words: $(shown "$words")"
}
