# What ./solve, tests/solve and harness/ share: installing a missing command, and running the kit's x86-64 programs on this machine.
# To be sourced. The script that does so sets `me`, its name in messages, and `logs`, a folder that it may write in.
machine=$(uname -m)

# Installs a Debian package if a command is missing; says so if that can't be.
need() { # COMMAND PACKAGE...
    command -v "$1" >/dev/null && return
    local command=$1
    shift
    if [ "$(id -u)" = 0 ] && command -v apt-get >/dev/null; then
        local install=(env DEBIAN_FRONTEND=noninteractive apt-get install -y --no-install-recommends "$@")
        { "${install[@]}" || { apt-get update && "${install[@]}"; }; } >"$logs/apt.log" 2>&1 </dev/null
    fi
    command -v "$command" >/dev/null || { echo "$me: $command is missing (Debian package $1)"; return 1; }
}

# The folder of the Rattle kit's compiler, with its loader and its C library. The kit is for x86-64.
kit() {
    command -v rt >/dev/null || return
    local home
    home=$(cd "$(dirname "$(readlink -f "$(command -v rt)")")/.." && pwd)
    [ "$machine" = x86_64 ] && [ -d "$home/toolchain" ] && echo "$home/toolchain"
}

# The command that runs x86-64 programs here; nothing is needed on x86-64.
emulator() {
    [ "$machine" = x86_64 ] && return
    need qemu-x86_64 qemu-user >&2 && command -v qemu-x86_64
}

# Sets `runner` to the words that stand before a program of target/bin: emulator, the kit's loader and its libraries, as far as needed.
find_runner() {
    local tools run
    tools=$(kit)
    run=$(emulator)
    runner=()
    [ -z "$run" ] || runner+=("$run")
    [ -z "$tools" ] || runner+=("$tools/lib/ld-linux-x86-64.so.2" --library-path "$tools/lib")
}
