# Cases of tests/solve: programs that are not built, or not of these sources. To be sourced.
# They run a copy of ./solve with sources of a few bytes, an rt of our own and programs that print what they should for examples/both.sheet.

# ./solve of the copy, its machine said to be one on which programs run by themselves.
fresh() { env -u CLAUSES -u SETTINGS -u VALUES -u COSTS PATH="$work/kit:$work/bare" "$work/copy/solve" examples/both.sheet; }

make_copy() {
    bare_path
    rm -rf "$work/copy" "$work/kit"
    mkdir -p "$work/copy/crates"/{clauses,settings,values,costs}/src
    cp -r solve tools "$work/copy"
    echo 'clauses:' >"$work/copy/crates.txt"
    echo '// 1' >"$work/copy/crates/clauses/src/main.rt"
    command_of kit/uname 'echo x86_64'
    command_of kit/cadical 'echo s UNSATISFIABLE; exit 20'
    command_of made/clauses 'printf "p cnf 3 5\n1 0\n-3 2 0\n-3 -2 0\n3 -2 2 0\n3 0\n"'
    command_of made/settings 'echo none claimed'
    command_of made/values 'echo none claimed'
    command_of made/costs 'echo'
}

# Makes an rt of one line, which notes that it was called. tools/build calls it in the folder of each program, and looks for out/NAME there.
make_rt() { # LINE
    command_of kit/rt "echo \"\$*\" >>'$work/rt.called'; name=\$(basename \"\$PWD\"); mkdir -p out; $1"
    rm -f "$work/rt.called"
}

# That rt was called so many times.
called() { # NAME TIMES
    cases=$((cases + 1))
    [ "$(grep -c . "$work/rt.called" 2>/dev/null)" = "$((4 * $2))" ] || fail "$1: rt was not called $2 times for each program"
}

not_built() {
    make_copy
    expect "no toolchain" 3 /dev/null "not built yet, and .*'rt', which builds them, is not on" fresh
    make_rt 'echo rt: whole refused; exit 1'
    expect "a proof that fails" 3 /dev/null 'could not be built' fresh
    make_rt :
    expect "no programs" 3 /dev/null 'could not be built' fresh
    make_rt "cp '$work/made/clauses' out/"
    expect "a program of four" 3 /dev/null 'could not be built' fresh
}

changed_sources() {
    make_copy
    make_rt "cp '$work/made/'\$name out/; echo rt: done"
    expect "a first run" 20 examples/both.expected 'first run: proving and building' fresh
    also "rt's own words" '^rt: done$'
    expect "a second run" 20 examples/both.expected '^solve: 3 rows$' fresh
    called "a second run" 1
    echo '// 2' >"$work/copy/crates/clauses/src/main.rt"
    expect "a source has changed" 20 examples/both.expected 'have changed since these were built' fresh
    called "a source has changed" 2
    touch -d '2001-01-01' "$work/copy/crates/clauses/src/main.rt"
    expect "only its time has changed" 20 examples/both.expected '^solve: 3 rows$' fresh
    called "only its time has changed" 2
    echo 'clauses: more' >"$work/copy/crates.txt"
    touch -d '2001-01-01' "$work/copy/crates.txt"
    expect "an old file in a new one's place" 20 examples/both.expected 'have changed since these were built' fresh
    called "an old file in a new one's place" 3
    echo '// more' >"$work/copy/crates/clauses/src/more.rt"
    expect "a new source" 20 examples/both.expected 'have changed since these were built' fresh
    echo '# other' >>"$work/copy/target/bin/clauses"
    expect "another program" 20 examples/both.expected 'have changed since these were built' fresh
    called "a new source, another program" 5
}

# Programs that others built, or where there is no rt.
built_elsewhere() {
    make_copy
    mkdir -p "$work/copy/target"
    cp -r "$work/made" "$work/copy/target/bin"
    find "$work/copy/crates.txt" "$work/copy/crates" -exec touch -d '2001-01-01' {} +
    expect "no rt, and nothing has changed" 20 examples/both.expected '^solve: 3 rows$' fresh
    make_rt "cp '$work/made/'\$name out/"
    expect "built by others" 20 examples/both.expected 'nothing tells whether the programs are of these sources' fresh
    called "built by others" 1
    expect "once more" 20 examples/both.expected '^solve: 3 rows$' fresh
    called "once more" 1
    rm "$work/kit/rt"
    echo '// 3' >"$work/copy/crates/clauses/src/main.rt"
    expect "no rt, and a source has changed" 3 /dev/null "have changed since these were built, and .*'rt'" fresh
    rm "$work/copy/target/solve.built"
    touch -d '2101-01-01' "$work/copy/crates/clauses/src/main.rt"
    expect "no rt, and a younger source" 3 /dev/null "the sources are younger than the programs, and .*'rt'" fresh
}

# A copy with an rt that brings the real programs; the kit's other folders are found beside it.
first_run() {
    local name real
    for name in clauses settings values costs; do
        if [ ! -x "target/bin/$name" ] || ! real=$(command -v rt); then
            left_out "a first run with the proved programs; they are not built here"
            return
        fi
    done
    make_copy
    rm "$work/kit/uname"
    ln -s "$(dirname "$(dirname "$(readlink -f "$real")")")/toolchain" "$work/toolchain"
    make_rt "cp '$root/target/bin/'\$name out/"
    expect "a first run with the proved programs" 20 examples/both.expected 'first run: proving and building' fresh
}

building_cases() {
    not_built
    changed_sources
    built_elsewhere
    first_run
}
