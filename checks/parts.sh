# Sourced by .ci/run and checks/all, which run other checks and add their numbers: each ends with a line such as
# `pages: 12 passed, 0 failed, 1 skipped`.
passed=0 failed=0 skipped=0

# What the checks need, and those that compare with SELinux's tools.
tools=(python3 git cc) selinux_tools=(checkpolicy sesearch seinfo sediff)

# What some checks are left out without.
further_tools=(valgrind mandoc systemd-analyze systemd-nspawn lintian)

room="$(mktemp -d)"
trap 'rm -rf "$room"' EXIT

# Adds the numbers of the last line in $room/said. A part that says no numbers, or ended by a fault ($1) and says that
# nothing failed, is one failure. Returns whether there were numbers.
add() {
    local numbers='([0-9]+) passed, ([0-9]+) failed(, ([0-9]+) skipped)?$'
    if ! [[ "$(tail -n 1 "$room/said")" =~ $numbers ]]; then
        failed=$((failed + 1))
        return 1
    fi
    local broken="${BASH_REMATCH[2]}"
    if [ "$1" != 0 ] && [ "$broken" = 0 ]; then
        broken=1
    fi
    passed=$((passed + BASH_REMATCH[1])) failed=$((failed + broken)) skipped=$((skipped + ${BASH_REMATCH[4]:-0}))
}

# Runs a part and shows what it says. Returns whether it passed.
part() {
    local ended=0
    "$@" 2>&1 | tee "$room/said" || ended=1
    add "$ended" || ended=1
    return "$ended"
}

# Runs a part and shows what it left out and its last line, or all from the first failure on; all, if it says no numbers.
brief_part() {
    local ended=0
    "$@" > "$room/said" 2>&1 || ended=1
    if add "$ended"; then
        grep '^left out: ' "$room/said" || true
        sed -n '/^FAILED: /,$p' "$room/said" | grep . || tail -n 1 "$room/said"
    else
        cat "$room/said"
        echo "FAILED: $1"
    fi
}

# Counts a check that isn't run, and says by which option.
leave_out() {
    echo "left out: $1"
    skipped=$((skipped + 1))
}

# Prints the sums, and ends with status 1 if something failed.
finish() {
    echo "$passed passed, $failed failed, $skipped skipped"
    exit $((failed != 0))
}
