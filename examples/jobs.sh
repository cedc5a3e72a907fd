# Sourced by examples/run, examples/check, examples/serve, examples/prove, examples/install, examples/deb and .ci/run.

# Ends the program with status 2, unless these are on the path.
need() {
    "$(dirname "${BASH_SOURCE[0]}")/../checks/needs" "$0" "$@" || exit 2
}

# `jobs` is 4 where four processors and 12 GB of memory are free, and otherwise empty, so that rt decides.
jobs=""
available="$(sed -n 's/^MemAvailable: *\([0-9]*\) kB$/\1/p' /proc/meminfo)"
if [ "$(nproc)" -ge 4 ] && [ "${available:-0}" -ge 12000000 ]; then
    jobs=4
fi

# Prints to standard error how many jobs were chosen, and how long a first run takes ($1).
say_jobs() {
    echo "$(basename "$0"): jobs at a time: ${jobs:-as rt decides}; a first run takes $1" >&2
}

# Prints to standard error what comes next if the program isn't proved.
say_unproved() {
    echo "$(basename "$0"): compiles svcmgr without proving it, and prints nothing more for one to four minutes" >&2
}

# Becomes svcmgr with these words: the program that the environment's SVCMGR names; one that is compiled as it is, if
# `unproved` isn't empty; or one that is proved and built first. The second and third word are a policy's files.
become_svcmgr() {
    if [ -n "${SVCMGR:-}" ]; then
        exec "$SVCMGR" "$@"
    fi
    cd "$(dirname "$0")/../crates/svcmgr"
    if [ -n "${unproved:-}" ]; then
        say_unproved
        exec rt try --data policy.rules="$2" --data policy.contexts="$3" -- \
            "$1" policy.rules policy.contexts "${@:4}"
    fi
    ../../examples/prove >&2
    exec out/svcmgr "$@"
}

# Runs svcmgr with these words.
svcmgr() (
    become_svcmgr "$@"
)
