# Builds Rust programs with rustc alone, for second/build and bench/run; goes with script.sh.

foreign=x86_64-unknown-linux-gnu

need_rustc() {
    command -v rustc >/dev/null 2>&1 || install rustc ||
        die "there is no rustc, and Debian's package rustc could not be installed"
}

has_foreign_library() {
    ls "$(rustc --print target-libdir --target $foreign)"/libstd-*.rlib >/dev/null 2>&1
}

need_foreign_tools() {
    command -v x86_64-linux-gnu-gcc >/dev/null 2>&1 || install gcc-x86-64-linux-gnu ||
        die "Debian's package gcc-x86-64-linux-gnu could not be installed"
    has_foreign_library && return
    { as_root dpkg --add-architecture amd64 && install libstd-rust-dev:amd64 && has_foreign_library; } ||
        die "rustc has no standard library for x86-64 (Debian's package libstd-rust-dev:amd64)"
}

# True if the program is there and none of its sources is newer.
fresh() { # PROGRAM SOURCE...
    [ -x "$1" ] || return 1
    program=$1
    shift
    newer=$(find "$@" -type f -newer "$program" 2>/dev/null) && [ -z "$newer" ]
}

# The new program takes the old one's place only when it is complete.
compile() { # CRATE PROGRAM MAIN [WORDS OF RUSTC...]
    crate=$1 program=$2 main=$3
    shift 3
    need_rustc
    { mkdir -p "${program%/*}" && true >"$program.new"; } 2>/dev/null || die "cannot write in ${program%/*}"
    rustc -O --edition 2021 --crate-name "$crate" -o "$program.new" "$@" "$main" >&2 || die "rustc could not compile $main"
    mv -f "$program.new" "$program" 2>/dev/null || die "cannot write in ${program%/*}"
}

# The same for an x86-64 program on any machine.
compile_foreign() { # CRATE PROGRAM MAIN
    need_rustc
    need_foreign_tools
    compile "$@" --target $foreign -C linker=x86_64-linux-gnu-gcc
}
