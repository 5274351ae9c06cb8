#!/usr/bin/env bash
# Coverage-guided fuzzing of what the readers of `bench` and `explain` meet: measure/fuzz.sh [SECONDS [TARGET ..]]
#
# Runs each target, or those that are named, one after another for so many seconds, 60 where none are given, by libFuzzer
# (https://llvm.org/docs/LibFuzzer.html). The targets, each with what has to hold of every text:
#     study   a study: `check` takes it or refuses it, and `explain study` refuses the same ones by the same line, with lines of help behind it;
#             of one that is taken `explain instance` tells the first instance of the first axiom, or says why there is none
#     report  a report or a sharp text over one of the small studies: `explain story` writes a page exactly where `check` confirms, and else
#             the line of `check`; `gain` has the status of `check`, where the study is of rules that choose sets
#     lrat    clauses and a proof: `lrat` says one of its lines
#     adopt   a proof over the clauses of one of the small studies: `check` confirms the report that `adopt` writes of it
#     words   the words of both programs, over files that are there: status 2 exactly with the line of usage
# And of every call: the status is one from 0 to 5, with 5 nothing is written and else lines, nothing goes to standard error, and the answer
# is the same where each read of a file gives a few bytes alone, 1 to 7. No text takes 20 seconds by the clock, or 2 GB.
#
# What runs are both programs whole, from `main` on, as they are proved: the toolchain gives its clang the module of a proved program, and
# here that clang is asked for more, for counters of edges and comparisons, and for the checks of AddressSanitizer (which sees a read or a
# write outside the memory that was asked for, and what is not given back). What is tried is so the code of LLVM with these in it, and not
# the executable in out/, nor what Rattle's own compiler makes. Files and output are those of measure/fuzz.c, in memory.
# The first texts are studies/, the rows of crates/rows and crates/explain_rows, and what the programs write of these, by measure/strange.py.
#
# Prints for each target the texts that were run, the seconds and those of a processor, the edges of both programs that were reached, the texts
# kept for what they reach, the longest run of one and the most memory, and how many texts failed, which are kept in ./fuzz_TARGET (crash-..,
# timeout-.., oom-.., leak-..). Edges are those of the two programs together, much of which no reader meets. The status is 1 where a text failed.
# FUZZ_CORPUS names a folder where texts that reach something new are kept, and from which a later run goes on. FUZZ_BUILT names one where what is
# built, in some minutes, is kept, and taken from by later runs, also by several side by side, each with another target.
# Wants Debian's clang, with its libFuzzer, beside the toolchain.
set -eu
. "$(dirname -- "$(readlink -f -- "${BASH_SOURCE[0]}")")/setup.sh"
seconds=${1-60}
[ $# -eq 0 ] || shift
targets=("$@")
[ $# -gt 0 ] || targets=(study report lrat adopt words)
built=${FUZZ_BUILT-$work}
kit=$(dirname -- "$(dirname -- "$(readlink -f -- "$(command -v rt)")")")
build_program
env -u BENCH_QUICK "$root/explain" rules "$root/studies/dictatorship.toml" >/dev/null

# The toolchain with a clang that is asked for more. AddressSanitizer goes over the functions with its attribute, and the module marks none.
make_toolchain() {
    mkdir -p "$built/toolchain/bin"
    ln -sfn "$kit/toolchain/lib" "$built/toolchain/lib"
    ln -sf "$kit"/toolchain/bin/* "$built/toolchain/bin/"
    rm "$built/toolchain/bin/clang"
    cat >"$built/toolchain/bin/clang" <<CLANG
#!/bin/sh
set -e
clang=$kit/toolchain/bin/clang
"\$clang" --no-default-config --target=x86_64-unknown-linux-gnu -S -emit-llvm -Xclang -disable-llvm-passes -x ir module.bc -o marked.ll
sed 's/^attributes #[0-9]* = { /&sanitize_address /' marked.ll >module.bc
rm marked.ll
exec "\$clang" "\$@" -fsanitize=address -fsanitize-coverage=inline-8bit-counters,pc-table,trace-cmp
CLANG
    chmod +x "$built/toolchain/bin/clang"
}

# The words with which the toolchain builds a program over the libraries that were proved.
words_for() {
    python3 - "$root" "$kit" "$1" <<'PY'
import os, re, sys
root, kit, name = sys.argv[1:]
with open(f"{root}/crates.txt") as lines:
    rows = [line.split("#")[0].partition(":") for line in lines]
below = {row[0].split()[0]: row[2].split() for row in rows if row[0].strip()}
def rlib(crate):
    return f"{root}/crates/{crate}/out/rlib/{crate}.rlib" if crate in below else f"{kit}/rlibs/{crate}.rlib"
seen = []
def visit(crate):
    for other in below[crate]:
        if other in below and other not in seen:
            visit(other)
            seen.append(other)
visit(name)
words = ["--crate-name", name, "src/main.rt", "--extern", f"std={kit}/rlibs/std.rlib", "-L", f"dependency={kit}/rlibs"]
for crate in below[name]:
    words += ["--extern", f"{crate}={rlib(crate)}"]
for crate in seen:
    words += ["-L", f"dependency={root}/crates/{crate}/out/rlib"]
words += ["--antt-project", f"{kit}/rattle/logic/antt-project.json", "--logic-built", f"{kit}/logic_built", "--links", f"{name}=", "--jobs", "1"]
print("\n".join(words))
PY
}
# The fuzzer: both programs, whose calls of the C library get other names, as their `main` does.
build_fuzzer() {
    local name call words renamed=(--redefine-sym _exit=given_exit)
    make_toolchain
    for call in open close read write; do renamed+=(--redefine-sym "$call=given_$call"); done
    for name in bench explain; do
        mapfile -t words < <(words_for "$name")
        (cd "$root/crates/$name" && "$kit/bin/rattle" build "${words[@]}" --toolchain "$built/toolchain" --backend llvm -o "$built/$name.o") \
            >"$built/$name.log" 2>&1 || { tail -n 20 "$built/$name.log" >&2; exit 1; }
        objcopy "${renamed[@]}" --redefine-sym "main=${name}_main" "$built/$name.o"
    done
    python3 "$root/measure/fuzz_texts.py" "$built"
    clang -O2 -g -Wall -D_GNU_SOURCE -fsanitize=address,fuzzer -o "$built/fuzz" "$root/measure/fuzz.c" "$built/bench.o" "$built/explain.o" \
        "$kit/c/libos_c.a" "$kit/c/liblibc_c.a" -lpthread
}
[ -x "$built/fuzz" ] || build_fuzzer

# Says what a run came to, from what libFuzzer wrote.
tell() { # TARGET SECONDS LOG FAILED CORPUS SPENT
    python3 - "$@" <<'PY'
import os, re, sys
target, seconds, log, failed, corpus, spent = sys.argv[1:]
with open(log, errors="replace") as file:
    text = file.read()
def found(form, join=max):
    return join(map(int, re.findall(form, text) or [0]))
runs, edges, all_edges = found(r"stat::number_of_executed_units: +(\d+)", sum), found(r"cov: (\d+)"), found(r"\((\d+) inline 8-bit counters\)")
longest, most = found(r"slowest_unit_time_sec: +(\d+)"), found(r"peak_rss_mb: +(\d+)")
kept = len(os.listdir(corpus))
with open(spent) as lines:
    processor = sum(float(word) for line in lines for word in line.split())
print(f"{target}: {runs} texts in {seconds} s, {processor:.0f} s of a processor, {edges} of {all_edges} edges, {kept} texts kept; longest {longest} s, {most} MB; {failed} failed", flush=True)
PY
}
# A text that failed does not end the run: the next goes on with what was kept, for the seconds that are left, up to twenty times.
run_target() { # TARGET
    local target=$1 corpus=${FUZZ_CORPUS-$work/corpus}/$1 log=fuzz_$1/log longest=6000 start=$SECONDS failed=0 left
    local TIMEFORMAT='%U %S'
    mkdir -p "$corpus" "fuzz_$target"
    [ "$target" != words ] || longest=400
    : >"$log"
    : >"$work/spent"
    while left=$((start + seconds - SECONDS)) && [ $left -gt 0 ] && [ $failed -lt 20 ]; do
        { time FUZZ_TARGET=$target FUZZ_HELD=$built/held ASAN_OPTIONS=detect_leaks=1:allocator_may_return_null=1 "$built/fuzz" \
            -max_total_time=$left -max_len=$longest -timeout=20 -report_slow_units=20 -rss_limit_mb=2048 -malloc_limit_mb=2048 -use_value_profile=1 \
            -dict="$built/$target.dict" -artifact_prefix="fuzz_$target/" -print_final_stats=1 "$corpus" "$built/first_$target" >>"$log" 2>&1; } \
            2>>"$work/spent" && break
        failed=$((failed + 1))
    done
    tell "$target" $((SECONDS - start)) "$log" "$failed" "$corpus" "$work/spent"
    [ "$failed" -eq 0 ]
}
status=0
for target in "${targets[@]}"; do
    run_target "$target" || status=1
done
exit $status
