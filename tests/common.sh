# shellcheck shell=bash
# What ./test, tests/run, tests/programs, tests/release, bench/run and tools/release share: counting tests, what crates.txt lists, programs for x86-64, and
# the module behind an archive. They are read at the top of the repository.
passed=0
failed=0

# note NAME STATUS: one test, passed where the status is 0.
note() {
    if [ "$2" -eq 0 ]; then
        passed=$((passed + 1))
        printf 'passed: %s\n' "$1"
    else
        failed=$((failed + 1))
        printf 'FAILED: %s\n' "$1"
    fi
}

# try NAME COMMAND...: a command that is one test. Its status is handed on.
try() {
    local name=$1 status
    shift
    "$@"
    status=$?
    note "$name" "$status"
    return "$status"
}

# quietly COMMAND...: prints what it says only where it fails.
quietly() {
    local said
    said=$("$@" 2>&1) || { printf '%s\n' "$said" && return 1; }
}

# add NAME COMMAND...: a command that counts its own tests and says so in its last line.
add() {
    local name=$1 log status last
    shift
    log=$(mktemp) || exit 2
    "$@" 2>&1 | tee "$log"
    status=${PIPESTATUS[0]}
    last=$(tail -n 1 "$log")
    rm -f "$log"
    if [[ $last =~ ^([0-9]+)\ passed,\ ([0-9]+)\ failed$ ]]; then
        passed=$((passed + BASH_REMATCH[1]))
        failed=$((failed + BASH_REMATCH[2]))
        # a bad status that no counted failure explains
        if [ "$status" -ne 0 ] && [ "${BASH_REMATCH[2]}" -eq 0 ]; then
            note "$name ended with status $status" 1
        fi
    else
        note "$name has no last line 'N passed, M failed' (status $status)" 1
    fi
}

# finish: the one last line, and the exit status that goes with it.
finish() {
    printf '%s passed, %s failed\n' "$passed" "$failed"
    [ "$failed" -eq 0 ]
    exit
}

# listed CRATE: whether crates.txt lists it; a word may stand before the colon.
listed() {
    grep -Eq "^[[:blank:]]*$1([[:blank:]]+[a-z_=0-9]+)*[[:blank:]]*:" crates.txt
}

# is_stale FILE: whether it is missing or older than some source.
is_stale() {
    [ ! -e "$1" ] || [ -n "$(find crates crates.txt -name out -prune -o -type f -newer "$1" -print -quit)" ]
}

# ---- programs for x86-64, which is what the kit makes; tests/x86 is the one place that knows how

# kit_for_this_machine: the folder of the kit's tools for this kind of machine.
kit_for_this_machine() {
    tests/x86 kit
}

# run_x86 PROGRAM [WORD...]; where words are wanted and no function: tests/x86 run PROGRAM.
run_x86() {
    tests/x86 run "$@"
}

# compile_x86 [WORD...]: compiles C to an object, with the words of cc -c.
compile_x86() {
    tests/x86 compile "$@"
}

# link_x86 OUT OBJECT...
link_x86() {
    quietly tests/x86 link "$@"
}

# ---- the LLVM module that the kit makes of a crate, and other machines

# keeping_module MODULE COMMAND...: runs a command of rt; the module that rt hands to the kit's clang is copied to MODULE.
keeping_module() {
    local module=$PWD/$1 own machine shadow status
    shift
    own=$(kit_for_this_machine) machine=$(uname -m) shadow=$(mktemp -d) || return 1
    chmod a+rx "$shadow" # rt runs programs as nobody
    mkdir -p "$(dirname "$module")" "$shadow/on/$machine/toolchain/bin"
    # a folder like the kit's, with another clang
    ln -s "$(dirname "$(dirname "$own")")"/* "$shadow" 2>/dev/null
    ln -s "$own"/* "$shadow/on/$machine" 2>/dev/null
    ln -s "$own/toolchain"/* "$shadow/on/$machine/toolchain" 2>/dev/null
    ln -s "$own/toolchain/bin"/* "$shadow/on/$machine/toolchain/bin"
    rm "$shadow/on/$machine/toolchain/bin/clang"
    cat >"$shadow/on/$machine/toolchain/bin/clang" <<END
#!/bin/sh
for word in "\$@"; do case \$word in *.bc) cp "\$word" "$module" ;; esac; done
exec "$own/toolchain/bin/clang" "\$@"
END
    chmod +x "$shadow/on/$machine/toolchain/bin/clang"
    RATTLE_HOME=$shadow "$@"
    status=$?
    rm -rf "$shadow"
    return "$status"
}

# as_text WORD... -o LL: the kit's clang makes a module's text for x86-64 of a module (-x ir) or of C, and changes nothing.
as_text() {
    "$(kit_for_this_machine)/toolchain/bin/clang" --target=x86_64-unknown-linux-gnu --no-default-config -nostdinc -isystem tests/headers \
        -Wno-unused-command-line-argument -S -emit-llvm -Xclang -disable-llvm-passes "$@"
}

# for_this_machine LL OBJECT: compiles a module's text that was made for x86-64, with the words that the kit has for it.
for_this_machine() {
    local machine
    machine=$(uname -m)-unknown-linux-gnu
    sed -i -e '/^target datalayout/d' -e "s/^target triple.*/target triple = \"$machine\"/" \
        -e 's/ "target-cpu"="[^"]*"//; s/ "target-features"="[^"]*"//; s/ "tune-cpu"="[^"]*"//' "$1"
    "$(kit_for_this_machine)/toolchain/bin/clang" --target="$machine" --no-default-config -ffunction-sections -fdata-sections \
        -mllvm -trap-unreachable -mllvm -no-trap-after-noreturn -O3 -fPIC -c -x ir "$1" -o "$2"
}

# calls_as_x86 LL: in the text of a module made of C, calls of the library as its own module has them: the place of a struct that comes back is an argument
# like any other, and no number is widened.
calls_as_x86() {
    sed -i -e 's/ sret([^)]*)//g; s/ zeroext//g' "$1"
}

# ---- what the kit makes, where it is missing or older than a source; on an Arm machine, whose release comes of them, the modules are kept

archive=crates/nx584/out/libnx584.a
program=crates/nxread/out/nxread
modules=target/modules

# made_by_the_kit FILE CRATE COMMAND...
made_by_the_kit() {
    local file=$1 crate=$2
    shift 2
    if [ "$(uname -m)" != aarch64 ]; then
        ! is_stale "$file" || "$@"
    elif is_stale "$file" || is_stale "$modules/$crate.bc"; then
        keeping_module "$modules/$crate.bc" "$@"
    fi
}

build_archive() {
    made_by_the_kit "$archive" nx584 in_crate nx584 lib
}

# in_crate CRATE WORD...: a command of rt, in the crate's folder
in_crate() {
    local folder=crates/$1
    shift
    (cd "$folder" && rt "$@" </dev/null)
}

# what it prints of no capture goes nowhere
make_nxread() {
    in_crate nxread run >/dev/null
}

build_nxread() {
    made_by_the_kit "$program" nxread make_nxread
}
