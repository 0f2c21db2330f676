# Sourced by ../toxi where ./build has made no program, and by ../install: the released one. It is unpacked once from this machine's archive in dist/, into
# out/released, or into the user's cache where the clone can't be written.
release="$root/dist"

# is_current: whether it is of the present source.
is_current() {
    [ "$(sed -n 's/^program //p' "$release/README.md" 2>/dev/null)" = "$(sum_of_program)" ]
}

# has_archive: whether there is one for this machine, by its sum. Sets `summed` to its line in SHA256SUMS, and `archive` to its name.
has_archive() {
    summed="$(grep -s -- "-$(uname -m)-linux\.tar\.gz$" "$release/SHA256SUMS")" && archive="${summed#*  }"
}

# why_no_machine: what to do on a machine that no release is for, as a sentence. Fails on one that there is a release for.
why_no_machine() {
    case "$(uname -sm)" in
    "Linux x86_64" | "Linux aarch64") return 1 ;;
    Linux*) echo "there is a program for x86-64 and ARM64 (aarch64) alone, and this is $(uname -m)" ;;
    *) echo "there is a program for Linux alone, and this is $(uname -s): docs/INSTALL.md has a container and a virtual machine" ;;
    esac
}

# is_released: whether the archive is what was released.
is_released() {
    (cd "$release" && echo "$summed" | sha256sum --check --status 2>/dev/null)
}

# keep_released: sets `program` to it. Fails where there is none, and tells why where there is an archive.
keep_released() {
    has_archive || return
    set -- "$root/out/released" "${XDG_CACHE_HOME:-${HOME-}/.cache}/toxi"
    for folder do
        program="$folder/toxi-${summed%% *}"
        [ ! -x "$program" ] || return 0
    done
    if ! is_released; then
        echo "toxi: dist/$archive isn't what was released: its sum isn't that of SHA256SUMS" >&2
        return 1
    fi
    for folder do
        program="$folder/toxi-${summed%% *}"
        said="$(unpack "$folder" 2>&1)" && return 0
    done
    echo "toxi: dist/$archive can't be unpacked into $1 or $2: $(echo "$said" | sed '/./!d; q')" >&2
    return 1
}

# unpack FOLDER: the program takes its place there when it is whole, and those of earlier releases go.
unpack() {
    mkdir -p "$1" && scratch="$(mktemp "$1/scratch.XXXXXX")" || return
    trap 'rm -f "$scratch"' EXIT
    trap 'exit 1' HUP INT TERM
    tar -xzOf "$release/$archive" "${archive%.tar.gz}/bin/toxi" >"$scratch" && chmod 755 "$scratch" || return
    if [ ! -x "$scratch" ]; then
        echo "$1 is mounted noexec: set XDG_CACHE_HOME to a folder that programs run from"
        return 1
    fi
    mv "$scratch" "$program" || return
    for earlier in "$1"/toxi-*; do
        [ "$earlier" = "$program" ] || rm -f "$earlier"
    done
}
