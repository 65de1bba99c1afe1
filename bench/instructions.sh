# For `.`: counts the instructions of a run by callgrind, which doesn't care what else runs on the machine.

# Prints the instructions that a command takes; what stands before `--` goes to callgrind.
instructions() {
    local flags=()
    while [ "${1:0:1}" = - ]; do
        flags+=("$1")
        shift
    done
    valgrind --tool=callgrind --callgrind-out-file=/dev/null "${flags[@]}" "$@" 2>&1 >/dev/null |
        sed -n 's/.*Collected : //p'
}
