#!/usr/bin/env bash
# Installs the library for C, and runs the examples with it: against the answers next to their
# recordings, under sanitizers, with each call of malloc failing in turn, and with faulty input.
#
#     examples/c/check.sh           installs the library in a folder of its own, by `./abr install`
#     examples/c/check.sh PREFIX    takes the one that is installed in this folder
#
# Its last line is a count. Its status is 1 if a check failed.
set -euo pipefail
given=$(realpath -m -- "${1:-.}")
cd "$(dirname "$0")/../.."
room=$(mktemp -d)
trap 'rm -rf "$room"' EXIT
recordings=(examples/border_router examples/c/externals examples/c/ranges)
router=(examples/c/router.c examples/c/dues.c examples/c/fib.c examples/c/recording.c examples/c/support.c)
first=(examples/c/first_use.c)
refused=(examples/c/refused.c examples/c/lsas.c)
warnings=(-Wall -Wextra -pedantic -Werror)
sanitizers=(-g "-fsanitize=address,undefined" -fno-sanitize-recover=all)
wraps=("-Wl,--wrap=malloc,--wrap=realloc,--wrap=free")
passed=0 failed=0

passes() {
    passed=$((passed + 1))
}

fails() { # WHAT
    failed=$((failed + 1))
    echo "examples/c: FAILED: $1"
}

# Runs a command, and prints its output if its status is not the wanted one. Its output is left in $room/out.
runs() { # WHAT STATUS COMMAND..
    local what=$1 wanted=$2 status=0
    shift 2
    "$@" > "$room/out" 2> "$room/err" < /dev/null || status=$?
    if [ "$status" = "$wanted" ]; then
        passes
        return 0
    fi
    fails "$what: status $status, and not $wanted"
    tail -n 20 "$room/out" "$room/err"
    return 1
}

same() { # WHAT FILE WANTED
    if diff "$2" "$3" > "$room/differs"; then
        passes
    else
        fails "$1 differs from $3"
        head -n 20 "$room/differs"
    fi
}

# Runs a command that has to write a file.
writes() { # WHAT FILE COMMAND..
    local what=$1 wanted=$2
    shift 2
    if runs "$what" 0 "$@"; then
        passed=$((passed - 1))
        same "$what" "$room/out" "$wanted"
    fi
}

answers_of() { # RECORDING
    echo "examples/c/$(basename "$1")"
}

replays() { # WHAT PROGRAM: the program replays each recording
    local it
    for it in "${recordings[@]}"; do
        writes "$1: $it" "$(answers_of "$it").routes" "$2" "$it.rec"
        writes "$1: $it due" "$(answers_of "$it").due" "$2" "$it.rec" due
    done
}

finish() {
    if [ "$failed" = 0 ]; then
        echo "examples/c: $passed checks passed"
        exit 0
    fi
    echo "examples/c: $passed checks passed, $failed failed"
    exit 1
}

# ---- The library, and the flags to link it

prefix=$given
if [ $# = 0 ]; then
    prefix=$room/usr
    runs "./abr install" 0 ./abr install "$prefix" || finish
fi
flags=("-I$prefix/include") libs=("-L$prefix/lib" -labr)
if command -v pkg-config > "$room/which"; then
    export PKG_CONFIG_PATH=$prefix/lib/pkgconfig
    runs "pkg-config" 0 pkg-config --cflags --libs abr || finish
    read -ra flags <<< "$(pkg-config --cflags abr)"
    read -ra libs <<< "$(pkg-config --libs abr)"
fi

# ---- Each compiler builds the examples

file_of() { # COMMAND
    readlink -f "$(command -v "$1")"
}

# (the third line comes from its part with threads)
head -n 2 crates/first_use/stdout > "$room/first_use"
compilers=(cc)
for it in gcc clang; do
    if command -v "$it" > "$room/which" && [ "$(file_of "$it")" != "$(file_of cc)" ]; then
        compilers+=("$it")
    fi
done
for it in "${compilers[@]}"; do
    compile=("$it" -std=c99 "${warnings[@]}" "${flags[@]}")
    runs "$it: router" 0 "${compile[@]}" "${router[@]}" "${libs[@]}" -o "$room/router_$it" || finish
    runs "$it: first_use" 0 "${compile[@]}" "${first[@]}" "${libs[@]}" -o "$room/first_$it" || finish
    runs "$it: refused" 0 "${compile[@]}" "${refused[@]}" "${libs[@]}" -o "$room/refused_$it" || finish
    writes "$it: first_use" "$room/first_use" "$room/first_$it"
    replays "$it: router" "$room/router_$it"
    runs "$it: refused" 0 "$room/refused_$it" || true
done
for it in c++ clang++; do
    if command -v "$it" > "$room/which"; then
        echo '#include <abr.h>' > "$room/header.cc"
        compile=("$it" -std=c++11 "${warnings[@]}" "${flags[@]}")
        runs "$it: abr.h" 0 "${compile[@]}" -c "$room/header.cc" -o "$room/header.o" || true
        compile+=(-x c++ "${first[@]}" -x none)
        runs "$it: first_use" 0 "${compile[@]}" "${libs[@]}" -o "$room/first_$it" || continue
        writes "$it: first_use" "$room/first_use" "$room/first_$it"
    fi
done

# ---- The program itself, if it is built

if [ -x crates/abr/out/abr ]; then
    for it in "${recordings[@]}"; do
        writes "abr replay: $it" "$(answers_of "$it").routes" crates/abr/out/abr replay "$it.rec"
        writes "abr replay: $it due" "$(answers_of "$it").due" crates/abr/out/abr replay "$it.rec" --show due
    done
fi

# ---- Recordings with a fault, and wrong words

refuses() { # WHAT TEXT: such a recording has status 1, and nothing is printed
    printf '%b' "$2" > "$room/fault.rec"
    if runs "$1" 1 "$room/router_cc" "$room/fault.rec" && [ -s "$room/out" ]; then
        passed=$((passed - 1))
        fails "$1: something was printed"
    fi
}

front='abr 3\nrouter 10.0.0.1\ncompat disabled\nserial 0\narea 0.0.0.0 normal\n'
refuses "an empty recording" ''
refuses "a version that is none" 'abr 4\n'
refuses "a line that is none" "${front}second\nthird\n"
refuses "a roll in version 2" 'abr 2\nrouter 10.0.0.1\ncompat disabled\narea 0.0.0.0 normal\nroll\n'
refuses "a line of the front behind an event" "${front}second\narea 0.0.0.1 normal\n"
refuses "a line without its line feed" "${front}second\nsecond"
refuses "an address that is none" "${front}second\nlookup 10.0.0.256\n"
refuses "a prefix with a bit behind its length" "${front}second\nrange-drop 0.0.0.0 10.0.0.1/8\n"
refuses "an LSA without bytes" "${front}second\ninstall 0.0.0.0 \n"
refuses "an LSA with half a byte" "${front}second\ninstall 0.0.0.0 000\n"
runs "a recording that is not there" 1 "$room/router_cc" "$room/none" || true
runs "no words" 2 "$room/router_cc" || true
runs "a wrong word" 2 "$room/router_cc" examples/border_router.rec owed || true

# ---- Sanitizers

echo 'int main(void) { return 0; }' > "$room/empty.c"
if cc "${sanitizers[@]}" "$room/empty.c" -o "$room/empty" 2> "$room/err" && "$room/empty" 2> "$room/err"; then
    compile=(cc -std=c99 "${warnings[@]}" "${sanitizers[@]}" "${flags[@]}")
    runs "sanitizers: router" 0 "${compile[@]}" "${router[@]}" "${libs[@]}" -o "$room/router_sane" || finish
    runs "sanitizers: refused" 0 "${compile[@]}" "${refused[@]}" "${libs[@]}" -o "$room/refused_sane" || finish
    replays "sanitizers: router" "$room/router_sane"
    runs "sanitizers: refused" 0 "$room/refused_sane" || true
fi

# ---- Memory that runs out, at each call of malloc or realloc

# Prints the faults of a run in which the call AT fails, and perhaps those after it. No memory may be
# left allocated.
wrong_with() { # VARIABLE AT RECORDING
    local status=0
    env "$1=$2" FAILING_REPORT="$room/report" "$room/failing" "$3.rec" > "$room/out" 2> "$room/err" || status=$?
    if ! read -r calls left 2> "$room/none" < "$room/report"; then
        echo "status $status, and no report"
    elif [ "$status" != 0 ] && [ "$status" != 3 ]; then
        echo "status $status"
    elif [ "$left" != 0 ]; then
        echo "$left blocks are not freed"
    elif [ "$status" = 0 ] && ! grep -v ' behind$' "$room/out" | cmp -s - "$(answers_of "$3").routes"; then
        echo "another output"
    elif [ "$status" = 3 ] && ! grep -q 'memory ran out' "$room/err"; then
        echo "no message"
    fi
}

runs_out() { # VARIABLE RECORDING
    local at=0 calls=0 left=0
    while [ "$calls" -ge "$at" ]; do
        at=$((at + 1))
        rm -f "$room/report"
        wrong_with "$1" "$at" "$2" > "$room/wrong"
        if [ -s "$room/wrong" ]; then
            fails "$1=$at: $2: $(cat "$room/wrong")"
            return
        fi
        read -r calls left < "$room/report"
    done
    passes
    echo "examples/c: $1: $2: $((at - 1)) calls"
}

compile=(cc -std=c99 "${warnings[@]}" "${flags[@]}" "${wraps[@]}")
runs "failing" 0 "${compile[@]}" "${router[@]}" examples/c/failing.c "${libs[@]}" -o "$room/failing" || finish
for it in "${recordings[@]}"; do
    runs_out FAILING_AT "$it"
done
runs_out FAILING_FROM examples/c/externals
compile=(cc -std=c99 "${warnings[@]}" "${flags[@]}" "-Wl,--wrap=malloc,--wrap=realloc")
runs "behind" 0 "${compile[@]}" examples/c/behind.c "${libs[@]}" -o "$room/behind" || finish
runs "behind" 0 "$room/behind" || true

# ---- The symbols that the archive needs of the system, and those that it defines

if command -v nm > "$room/which"; then
    nm -g "$prefix/lib/libabr.a" | awk 'NF > 1 && $(NF - 1) == "U" { print $NF }' | sort -u > "$room/asked"
    nm -g "$prefix/lib/libabr.a" | awk 'NF == 3 && $2 != "U" { print $3 }' | sort -u > "$room/given"
    comm -23 "$room/asked" "$room/given" > "$room/beyond"
    printf '%s\n' free malloc memcpy memmove memset realloc > "$room/wanted"
    same "what libabr.a calls" "$room/beyond" "$room/wanted"
fi

# ---- Python, by the module that is installed, and by one in examples/

if command -v python3 > "$room/which"; then
    modules=$(dirname "$(dirname "$(echo "$prefix"/lib/python3*/*-packages/abr/libabr.so)")")
    library=$modules/abr/libabr.so
    for it in "${recordings[@]}"; do
        grep -E '^(route|discard) ' "$(answers_of "$it").routes" > "$room/routes"
        writes "routes.py: $it" "$room/routes" python3 examples/python/routes.py "$it.rec" "$library"
        program="import abr; print(*abr.load('$it.rec').routes(), sep='\n')"
        writes "import abr: $it" "$room/routes" env PYTHONPATH="$modules" python3 -c "$program"
    done
    program="import abr; print(abr.load('examples/border_router.rec').lookup('203.0.113.9'))"
    echo "route 203.0.113.0/25 intra 0.0.0.0 12 0 peer:2" > "$room/found"
    writes "abr.Router.lookup" "$room/found" env PYTHONPATH="$modules" python3 -c "$program"
fi

# ---- The other installed files: the program, its pages, and one version; and their removal

"$prefix/bin/abr" --version > "$room/version"
if command -v pkg-config > "$room/which"; then
    echo "abr $(pkg-config --modversion abr)" > "$room/packaged"
    same "the version of abr.pc" "$room/packaged" "$room/version"
fi
if command -v python3 > "$room/which"; then
    PYTHONPATH=$modules python3 -c 'import abr; print("abr", abr.__version__)' > "$room/packaged"
    same "the version of the module" "$room/packaged" "$room/version"
fi
for it in man/man1/abr.1 bash-completion/completions/abr zsh/site-functions/_abr fish/vendor_completions.d/abr.fish; do
    runs "share/$it" 0 test -s "$prefix/share/$it" || true
done
runs "bash reads its completions" 0 bash -n "$prefix/share/bash-completion/completions/abr" || true
runs "an installation where none can be" 1 ./abr install /proc/none || true
if [ $# = 0 ]; then
    DESTDIR=$room/package runs "./abr install with DESTDIR" 0 ./abr install /usr || true
    runs "DESTDIR" 0 test -x "$room/package/usr/bin/abr" || true
    DESTDIR=$room/package runs "./abr uninstall with DESTDIR" 0 ./abr uninstall /usr || true
    runs "./abr uninstall" 0 ./abr uninstall "$prefix" || true
    find "$prefix" "$room/package" ! -type d > "$room/left"
    same "what is left" "$room/left" /dev/null
fi
finish
