# For `.`: the program that is measured. If GEOCOM names one, it is that; GC_BENCH and GC_CASES name the two others. Otherwise the
# program of the checked-out commit is built.

geocom=${GEOCOM:-../crates/geocom/out/geocom}
parts=${GC_BENCH:-../crates/gc_bench/out/gc_bench}
cases=${GC_CASES:-../crates/gc_cases/out/gc_cases}

# Builds a crate's program from the checked-out sources, and prints the commit; refuses sources that differ from it.
built() {
    local crate=$1
    shift
    case $crate in
        geocom) [ -z "${GEOCOM-}" ] || return 0 ;;
        gc_bench) [ -z "${GC_BENCH-}" ] || return 0 ;;
        gc_cases) [ -z "${GC_CASES-}" ] || return 0 ;;
    esac
    if [ -n "$(git status --porcelain -- ../crates ../crates.txt)" ]; then
        echo "the crates differ from the commit that is checked out: what would be measured has no name" >&2
        exit 1
    fi
    (cd "../crates/$crate" && rt run -- "$@" </dev/null >/dev/null)
    echo "commit $(git rev-parse --short=8 HEAD), $crate"
}
