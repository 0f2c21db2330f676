# Sourced by tree, ../package, ../install and the tests, where `root` is the repository: what is packed beside the program.

# The pages of the manual. The others are for those who change the program.
PAGES="CAMPAIGNS CI CLOCK CONTAINERS DRAW FAULTS FINDING FROM-TOXIPROXY INSTALL LANGUAGES MEANING OPERATING PERFORMANCE PROFILE REPLAY REPORT SCRIPTS SWEEPING TESTING-WITH-TOXI TOXICS"
# The machines that there are programs for, as `uname -m` prints them; packaging/machines.py has the rest of each.
MACHINES="x86_64 aarch64"
# Folders that are packed as they are.
FOLDERS="clients docs/pictures examples python/toxi"

# date_of_source: the day of the source, so that the same commit gives the same files.
date_of_source() {
    if [ -n "${SOURCE_DATE_EPOCH-}" ]; then
        date -u -d "@$SOURCE_DATE_EPOCH" +%F
    else
        git -C "$root" log -1 --format=%cd --date=short 2>/dev/null || date +%F
    fi
}

# files_of NAME..: the files of the repository that have these names or are below them, without what a tool has left there.
files_of() {
    (cd "$root" && find "$@" -type f ! -path '*/__pycache__/*' ! -path 'python/build/*' ! -path '*.egg-info/*' ! -path 'clients/*/target/*' \
        ! -path clients/rust/Cargo.lock)
}

# sum_of_package: the sum of what is packed beside the program, and of what packs it.
sum_of_package() {
    files_of package packaging LICENSE CHANGELOG.md SECURITY.md python tests/python $FOLDERS $(printf 'docs/%s.md ' $PAGES) |
        LC_ALL=C sort -u | (cd "$root" && tr '\n' '\0' | xargs -0 sha256sum) | sha256sum | cut -c 1-64
}
