# Sourced by ../build and ../tests/gate, in the folder that has both.

# keep_proved COPY: keeps the programs that packaging/link has made of a copy of the repository in COPY/linked, with what they are made of and the sum of their
# source, and lets go of the unproved one. That of this machine is renamed into its place, since an earlier program that runs can't be written over, and a call
# meanwhile must not find half of it.
keep_proved() {
    . ./launcher/sums.sh
    root="$1"
    mkdir -p crates/toxi/out &&
        cp "$1"/linked/* crates/toxi/out/ &&
        sum_of_program >crates/toxi/out/toxi.source &&
        cp "crates/toxi/out/toxi-$(uname -m)" crates/toxi/out/toxi.new &&
        mv crates/toxi/out/toxi.new crates/toxi/out/toxi &&
        rm -f out/unproved/toxi-*
}
