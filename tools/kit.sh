# The Rattle kit on this machine, for the scripts beside this file that read it. Each of them has a function fail, which
# prints one line and stops.

need_machine() {
    machine=$(uname -m)
    [ "$machine" = x86_64 ] || fail "the Rattle kit proves and builds on x86_64 alone, and this machine is $machine"
}

need_rt() {
    command -v rt >/dev/null 2>&1 || fail "rt is missing: what is proved is built with the Rattle kit"
}

# Sets toolchain, the folder of the kit's compiler, linker and C library.
find_toolchain() {
    need_rt
    toolchain=$(dirname -- "$(readlink -f -- "$(command -v rt)")")/../toolchain
}
