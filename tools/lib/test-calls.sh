# Part of tools/test-run, for the stand-in project: what every script says to wrong calls, and what becomes of things that
# are missing or must not be written.

# One line on standard error that begins so, nothing on standard output, and this status.
one_line() { # NAME STATUS BEGINNING
    local problem=''
    [ "$(cat "$room/status")" = "$2" ] || problem="status $(cat "$room/status"), expected $2"
    [ ! -s "$room/out" ] || problem="$problem; wrote '$(head -c 200 "$room/out" | tr '\n' '|')'"
    case $(wc -l <"$room/err"):$(cat "$room/err") in
    1:"$3"*) ;;
    *) problem="$problem; said '$(head -c 400 "$room/err" | tr '\n' '|')', expected one line '$3 ..'" ;;
    esac
    result "$1" "$problem"
}

# No script takes two words that mean nothing, or none at all; each one has its help.
calls() {
    local script each called
    for script in run second/build bench/run tools/inside tools/events tools/compare tools/try-edits tools/check-links \
        tools/check-contracts tools/check-refusals tools/cost tools/test-run tools/test-events tools/bodies.py; do
        each=$project/$script
        called=${script#tools/}
        try "$each" --no-such ''
        one_line "$script: wrong words" 2 "$called: usage: "
        try "$each" ''
        one_line "$script: an empty word" 2 "$called: usage: "
        for word in -h --help; do
            try "$each" "$word"
            result "$script: $word" "$([ "$(cat "$room/status")" = 0 ] && [ -s "$room/out" ] && [ ! -s "$room/err" ] || echo 'no help')"
        done
        : >"$room/out"
        "$each" --help >/dev/full 2>"$room/err"
        echo $(($? > 0)) >"$room/status"
        one_line "$script: help on a full disk" 1 "$called: "
        "$each" --help >&- 2>"$room/err"
        echo $(($? > 0)) >"$room/status"
        one_line "$script: help on a closed output" 1 "$called: "
    done
    try "$project/tools/compare" 10 x
    one_line "compare: no number" 2 "compare: usage: "
    "$project/tools/compare" 1 1 >&- 2>"$room/err"
    echo $? >"$room/status"
    one_line "compare: a closed output" 1 'compare: standard output is closed'
    "$project/bench/run" turns >&- 2>"$room/err"
    echo $? >"$room/status"
    one_line "bench: a closed output" 2 'bench/run: standard output is closed'
    try "$project/tools/check-refusals"
    judge "check-refusals: no log" 1 <(echo '0 passed, 0 failed') \
        'check-refusals: target/ci.log has no edit: .ci/run writes it, or name a file with what rt ci or rt must-fail said'
    "$here/tools/check-links" >/dev/full 2>/dev/null
    result "check-links: a full disk" "$([ $? != 0 ] || echo 'status 0')"
}

# Without a command that a script needs. Nothing is installed: the PATH has no apt-get.
missing() {
    local no_rustc="there is no rustc, and Debian's package rustc could not be installed"
    PATH=$room/few try "$project/second/build"
    one_line "second/build: no rustc" 1 "second/build: $no_rustc"
    PATH=$room/few try "$project/tools/compare" 1 1
    one_line "compare: no rustc" 1 "second/build: $no_rustc"
    PATH=$room/few try "$project/bench/run" turns
    one_line "bench: no rustc" 2 "bench/run: $no_rustc"
    PATH=$room/few try "$project/tools/try-edits"
    one_line "try-edits: no rt" 1 'try-edits: the command rt of the Rattle toolchain is not on the PATH'
    PATH=$room/few try "$project/tools/events" help
    one_line "events: no python3" 1 'events: the command python3 is not on the PATH'
    mkdir "$room/rust"
    printf '#!/bin/sh\nexit 1\n' >"$room/rust/rustc"
    chmod 755 "$room/rust/rustc"
    PATH=$room/rust:$room/few try "$project/second/build"
    one_line "second/build: rustc fails" 1 "second/build: rustc could not compile $project/second/src/main.rs"
    rm -f "$project/target/second/second.new"
    chmod 555 "$project/target/second"
    if as_another "second/build: a read-only folder" "$project/second/build"; then
        PATH=$room/rust:$PATH try "${as[@]}" "$project/second/build"
        one_line "second/build: a read-only folder" 1 "second/build: cannot write in $project/target/second"
    fi
    chmod 755 "$project/target/second"
}

# Nothing can be built into a target folder that is read-only or may not be looked into.
no_target() {
    local mode run=$project/run
    touch "$project/crates.txt"
    as_another "a read-only target" "$run" || return
    for mode in 555 000; do
        chmod $mode "$project/target/run" "$project/target"
        try "${as[@]}" "$run" "$room/good.feed"
        chmod 755 "$project/target" "$project/target/run"
        one_line "a target folder of mode $mode" 1 "run: cannot write in $project/target"
    done
    try "$run" "$room/good.feed"
    judge "a target folder given back" 0 "$room/good.sheet" "$building"
}

# The names that tools/try-edits takes, with the stand-in for rt, which proves nothing.
edits() {
    local tool=$project/tools/try-edits
    mkdir -p "$project/edits/flat" "$project/crates/flat"
    : >"$project/edits/flat/wrong.edit"
    for name in .. ../crates none; do
        try "$tool" flat "$name"
        one_line "try-edits: $name" 2 'try-edits: usage: '
    done
    TMPDIR=$room/none try "$tool" flat
    one_line "try-edits: no temporary folder" 1 'try-edits: no temporary folder can be made'
    : >"$room/builds"
    try "$tool"
    judge "try-edits: all of them" 0 "$room/nothing" ''
    result "try-edits: the command" "$(grep -q ' must-fail flat$' "$room/builds" || cat "$room/builds")"
    rm "$project/edits/flat/wrong.edit"
    try "$tool" flat
    one_line "try-edits: no edits to copy" 1 'try-edits: the project could not be copied to the temporary folder '
}
