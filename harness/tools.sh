# What harness/run and harness/bench share: finding and building what is compared. To be sourced, in harness/.
root=$(cd .. && pwd)
me=harness
logs=target
. ../tools/machine.sh
flags="-std=c11 -D_POSIX_C_SOURCE=200809L -O2 -Wall -Wextra -Werror -I$root/include"

# Builds the server over the proved library and sets SERVER to its command. A missing compiler ends the run with status 2.
find_library() {
    local archive=$root/target/staticlib/libfordrambler_c.a compiler=gcc
    SERVER=
    if command -v rt >/dev/null; then
        "$root/tools/build" fordrambler_c >target/staticlib.log 2>&1 ||
            { tail -n 5 target/staticlib.log; echo "harness: tools/build fordrambler_c failed"; return 1; }
    fi
    if [ ! -f "$archive" ]; then
        echo "harness: target/staticlib/libfordrambler_c.a is not there, and no rt to build it"
        return 1
    fi
    if [ "$machine" != x86_64 ]; then
        compiler=x86_64-linux-gnu-gcc
        need "$compiler" gcc-x86-64-linux-gnu libc6-dev-amd64-cross || exit 2
    fi
    # shellcheck disable=SC2086
    "$compiler" $flags -static shim/server.c "$archive" -o target/server || return 1
    SERVER="$(emulator) $PWD/target/server"
}

# Sets CLAUSES, SETTINGS and VALUES to the commands of the programs, which must be built.
find_programs() {
    CLAUSES='' SETTINGS='' VALUES=''
    find_program clauses && CLAUSES=$found && find_program settings && SETTINGS=$found && find_program values && VALUES=$found
}

find_program() { # NAME
    local runner
    found=
    if [ ! -x "$root/target/bin/$1" ]; then
        echo "harness: target/bin/$1 is not there; tools/build $1 builds it"
        return 1
    fi
    find_runner
    found="${runner[*]} $root/target/bin/$1"
}

# Sets SOLVERS to the solvers; each must be installed, or be there to install.
find_solvers() {
    local pair missing=0
    SOLVERS=
    for pair in cadical:cadical minisat:minisat picosat:picosat cryptominisat5:cryptominisat; do
        if need "${pair%:*}" "${pair#*:}"; then SOLVERS="$SOLVERS ${pair%:*}"; else missing=1; fi
    done
    return "$missing"
}
