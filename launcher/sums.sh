# Sourced by ../toxi, ../package and the tests, where `root` is the folder that has them.

# sum_of_program: the sum of the program's source: the list of its crates, and the names and contents of their files. By it a program is known for that of
# another source.
sum_of_program() {
    (cd "$root" && grep -v '^tests_' crates.txt | sha256sum && find crates/tox*/src -type f -exec sha256sum {} +) | LC_ALL=C sort | sha256sum | cut -c 1-64
}
