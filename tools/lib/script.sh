# What the project's scripts have in common: how they refuse, how they help, where the toolchain is. A script sets `root`,
# the project's folder, and `script`, its own path from there, and then reads this file; `trouble` is the status of its
# refusals where that is not 1.

# One line on standard error, whatever stands in a file's name.
die() { # TROUBLE [STATUS]
    printf '%s: %s\n' "${script#tools/}" "$(printf '%s' "$1" | tr '[:cntrl:]' '?')" >&2
    exit "${2:-${trouble:-1}}"
}

wrong_call() { # USAGE
    die "usage: $1" 2
}

# Prints the comment that the script begins with.
help() {
    sed -n '2,/^[^#]/s/^# \{0,1\}//p' "$root/$script" 2>/dev/null || die "standard output could not be written"
    exit 0
}

# For a script that is called by its name alone.
no_words() { # WORDS...
    case $#:${1-} in
    0:) ;;
    1:-h | 1:--help) help ;;
    *) wrong_call "$script" ;;
    esac
}

# A program cannot tell a closed output from /dev/null.
need_output() {
    { true 3>&1; } 2>/dev/null || die "standard output is closed"
}

need_rt() {
    command -v rt >/dev/null 2>&1 || die "the command rt of the Rattle toolchain is not on the PATH"
}

as_root() {
    if [ "$(id -u)" = 0 ]; then "$@"; else sudo -n "$@"; fi >/dev/null 2>&1
}

# Installs Debian's packages. Says nothing: where it fails, the caller's line says what is missing.
install() {
    as_root apt-get update && as_root env DEBIAN_FRONTEND=noninteractive apt-get -y install "$@"
}

# All programs are x86-64 ones.
native() {
    machine=$(uname -m)
    case $machine in
    x86_64 | amd64) ;;
    *) return 1 ;;
    esac
}

# Sets `toolchain` and `emulator`, for a machine that is not x86-64. No setting of the emulator changes what is run.
find_emulator() {
    need_rt
    guide=$(rt doc 2>/dev/null) || die "the command rt does not say where its toolchain is"
    toolchain=${guide%/*}/toolchain
    command -v qemu-x86_64 >/dev/null 2>&1 || install qemu-user
    emulator=$(command -v qemu-x86_64) ||
        die "there is no qemu-x86_64 for this machine, $machine, and Debian's package qemu-user could not be installed"
    for word in $(env | sed -n 's/^\(QEMU_[A-Za-z0-9_]*\)=.*/\1/p'); do unset "$word"; done
}
