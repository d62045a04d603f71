# For harness/bench where the machine isn't x86-64 and what `rt` builds runs in an emulator only: the same code, compiled for this machine.
# A kit made of links has a clang that keeps the LLVM module it is handed, and then does what the kit's does. The kit's own clang compiles that
# module once more, for this machine and at the same level. To be sourced, in harness/, behind tools.sh.
native=$PWD/target/native

# Links all of a folder into another, but for one name.
link_all() { # FROM TO BUT
    local part
    mkdir -p "$2"
    for part in "$1"/*; do
        [ "$(basename "$part")" = "$3" ] || ln -sfn "$part" "$2/"
    done
}

make_kit() { # TOOLCHAIN
    local home=${1%/on/*} own=$native/kit/on/$machine
    rm -rf "$native"
    link_all "$home" "$native/kit" on
    link_all "$home/on/$machine" "$own" toolchain
    link_all "$1" "$own/toolchain" bin
    link_all "$1/bin" "$own/toolchain/bin" clang
    cat >"$own/toolchain/bin/clang" <<END
#!/bin/sh
for word; do case \$word in *.bc) cp "\$word" '$native/module.bc' ;; esac; done
exec '$1/bin/clang' "\$@"
END
    chmod +x "$own/toolchain/bin/clang"
}

# Has rt build something and compiles the module that it made: target/native/NAME.o.
compile_native() { # NAME WORDS-OF-RT...
    local name=$1
    shift
    rm -f "$native/module.bc"
    (cd "$root" && RATTLE_HOME="$native/kit" rt "$@") >"$native/$name.log" 2>&1 && [ -f "$native/module.bc" ] &&
        "$(kit)/bin/clang" --target="$machine-unknown-linux-gnu" -O3 -Wno-override-module -c -x ir "$native/module.bc" \
            -o "$native/$name.o" 2>>"$native/$name.log" && return
    tail -n 5 "$native/$name.log"
    echo "harness: $name can't be compiled for this machine"
    return 1
}

# Sets SERVER and CLAUSES to commands that run on this machine itself.
find_native() {
    local tools
    tools=$(kit)
    [ -n "$tools" ] || { echo "harness: no rt here"; return 1; }
    make_kit "$tools"
    compile_native fordrambler_c staticlib fordrambler_c || return 1
    # shellcheck disable=SC2086
    gcc $flags shim/server.c "$native/fordrambler_c.o" -o "$native/server" || return 1
    rm -f "$root/target/stamp/clauses" # so that rt builds the program once more
    compile_native clauses check clauses || return 1
    gcc "$native/clauses.o" -o "$native/clauses" || return 1
    SERVER=$native/server CLAUSES=$native/clauses
}
