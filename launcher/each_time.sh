# Sourced by ../toxi where the kit's unproved program can't be kept: each call compiles it anew, and prints when it has ended.

# run_each_time ARGUMENT..: runs a command so, and ends with its status.
run_each_time() {
    if serves "$@" && [ "${2-}" != --help ]; then
        echo "toxi: \`serve\` runs the proved program: run \`./build\` first" >&2
        exit 1
    fi
    echo "toxi: checked build, about a minute; \`./build\` makes the proved one" >&2

    # `rt try` runs the program in a folder of its own, so the files that the arguments name are handed to it by name.
    count=$#
    for argument do
        [ -f "$argument" ] && set -- "$@" --data "$argument=$(realpath "$argument")"
    done
    set -- "$@" --
    while [ "$count" -gt 0 ]; do
        argument="$1"
        shift
        set -- "$@" "$argument"
        count=$((count - 1))
    done

    # Its own closing lines are left out of standard error.
    said="$(mktemp)"
    trap 'rm -f "$said"' EXIT
    (cd "$root/crates/toxi" && exec rt try "$@") 2>"$said"
    status=$?
    grep -vE '^(checked: ended|races: not looked for|run=ended) ?' "$said" >&2
    exit "$status"
}
