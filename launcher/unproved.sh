# Sourced by ../toxi where ./build has made no program and the released one is of another source: the kit's unproved program of the present one, compiled once
# and kept in out/unproved. It is named by the sum of its source, so that it is compiled again when a source has changed.
kept="$root/out/unproved"
scratch=
try=

# keep_unproved: sets `program` to it, and compiles it if need be. Fails where none can be kept; ends where it doesn't compile.
keep_unproved() {
    begun="$(date +%s)"
    program="$kept/toxi-$(sum_of_program)"
    if [ ! -x "$program" ]; then
        can_keep && share_compile || return
    fi
    warn
}

# serves ARGUMENT..: whether a command line is of `serve`. An option may stand before the command.
serves() {
    [ "${1-}" != --explain ] || shift
    [ "${1-}" = serve ]
}

# can_block: whether signals can be blocked for the program, and it can see them then.
can_block() {
    [ -r /proc/self/status ] && env --block-signal=HUP,INT,TERM true 2>/dev/null
}

# run_unproved ARGUMENT..: becomes the program. The kit links it without our start, which blocks the signals that `serve` looks for. The shell between is for a
# path with `=`, which `env` would take for a variable.
run_unproved() {
    if serves "$@" && can_block; then
        exec env --block-signal=HUP,INT,TERM sh -c 'exec "$0" "$@"' "$program" "$@"
    fi
    exec "$program" "$@"
}

# Once an hour, since each call would say it.
warn() {
    [ -z "$(find "$kept/warned" -mmin -60 2>/dev/null)" ] || return 0
    echo "toxi: checked build: ten to a hundred times slower, not for load; \`./build\` makes the proved program" >&2
    # A special command whose redirection fails would end the shell.
    (: >"$kept/warned") 2>/dev/null || true
}

can_keep() {
    command -v flock >/dev/null && mkdir -p "$kept" 2>/dev/null && (: >>"$kept/lock") 2>/dev/null
}

# Compiles it under a lock, or waits for the call that does.
share_compile() {
    exec 9>>"$kept/lock"
    for signal in HUP INT TERM; do
        trap "leave $signal" "$signal"
    done
    [ -t 2 ] || echo "toxi: compiling without proofs, a minute or two" >&2
    until [ -x "$program" ]; do
        flock -n 9
        case $? in
        0) compile || break ;;
        1) tick ;;
        *) break ;;
        esac
    done
    trap - HUP INT TERM
    # Else what runs from here on would hold the lock.
    exec 9>&-
    [ ! -t 2 ] || echo >&2
    [ -x "$program" ]
}

# Compiles it once. What `rt try` makes goes away when its program has ended, so that program is given a pipe to read which nobody writes, and is copied
# meanwhile. Fails where no program is seen.
compile() {
    # The call that held the lock may have made it.
    program="$kept/toxi-$(sum_of_program)"
    [ ! -x "$program" ] || return 0
    # Of a compile that was killed.
    rm -rf "$kept"/scratch.*
    if ! { scratch="$(mktemp -d "$kept/scratch.XXXXXX")" && mkfifo "$scratch/script"; }; then
        stop
        return 1
    fi
    start_try
    seen=
    while [ -z "$seen" ] && kill -0 "$try" 2>/dev/null; do
        tick
        end_hints
        for found in "$scratch"/*/*/program; do
            [ ! -x "$found" ] || ! copied "$found" || seen="$found"
        done
    done
    [ -n "$seen" ] || grep '^run=' "$scratch/said" | grep -qv '^run=none' || fail
    take "$seen"
    taken=$?
    stop
    return "$taken"
}

start_try() {
    # It ends with this shell, even if that is killed.
    tied=
    hints_ended=
    ! command -v setpriv >/dev/null || tied="setpriv --pdeathsig HUP --"
    (
        cd "$root/crates/toxi" || exit
        export TMPDIR="$scratch"
        exec $tied rt try -- migrate --script "$scratch/script"
    ) </dev/null >"$scratch/said" 2>&1 9>&- &
    try=$!
}

# Ends what `rt try` runs beside the compile: a check of names for hints that nobody reads here, which takes as much of a processor as the compile.
end_hints() {
    [ -n "$hints_ended" ] || ! pkill -KILL -x -P "$try" rattle 2>/dev/null || hints_ended=yes
}

# copied PROGRAM: copies it, if it is whole and runs. The kit may still be writing or moving it, and a shell runs an empty file with success.
copied() {
    {
        cp "$1" "$scratch/toxi" &&
            version="$("$scratch/toxi" --version </dev/null)" && [ -n "$version" ] &&
            [ "$(sha256sum <"$1")" = "$(sha256sum <"$scratch/toxi")" ]
    } 2>/dev/null
}

# take PROGRAM: keeps the copy of it in place of earlier ones. If the source has changed meanwhile, it is to be compiled again.
take() {
    [ -n "$1" ] || return
    sum="$(sum_of_program)"
    if [ "$program" = "$kept/toxi-$sum" ]; then
        rm -f "$kept"/toxi-*
        mv "$scratch/toxi" "$program"
    fi
    program="$kept/toxi-$sum"
}

# Waits a moment, and counts the seconds on a terminal.
tick() {
    [ ! -t 2 ] || printf '\rtoxi: compiling without proofs, %d s' $(($(date +%s) - begun)) >&2
    sleep 0.2
    ! told_to_end || leave TERM
}

# Whether SIGINT or SIGTERM (bits 1 and 14) waits and isn't ignored. A caller may have blocked them for the program, which looks for them itself.
told_to_end() {
    [ -r "/proc/$$/status" ] || return
    while read -r name value; do
        case "$name" in
        ShdPnd:) pending="${value#????????????}" ;;
        SigIgn:) ignored="${value#????????????}" ;;
        esac
    done <"/proc/$$/status"
    [ $((0x$pending & ~0x$ignored & 0x4002)) -ne 0 ]
}

# Ends the compile, and leaves nothing of it. The caller may have blocked SIGTERM.
stop() {
    if [ -n "$try" ]; then
        kill -s HUP "$try" 2>/dev/null
        wait "$try" 2>/dev/null
    fi
    [ -z "$scratch" ] || rm -rf "$scratch"
    try=
    scratch=
}

# leave SIGNAL: ends as the signal wants it.
leave() {
    stop
    trap - HUP INT TERM
    kill -s "$1" $$
    # The signal is blocked.
    exit 1
}

# Shows why it doesn't compile, and ends.
fail() {
    [ ! -t 2 ] || echo >&2
    cat "$scratch/said" >&2
    stop
    exit 1
}
