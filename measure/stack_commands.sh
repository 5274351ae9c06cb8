#!/usr/bin/env bash
# The least stack within which each command of `bench` and of `explain` over a study answers as with 64 MB, over the deepest sentences that a
# study may have: depth 64, by signs, by groups, by calls, and by 12 quantifiers with signs, of rules that choose; by signs and by
# quantifiers of rules that rank and of rules that give sets too; `gain` over these last alone. Those by signs and by groups stand beside an
# axiom that contradicts them, so that there is a story. Each with one worker and with two, where it has workers. The limit is a quarter of the
# 8 MB that a main thread has.
# Prints `COMMAND K KB of 2048` for each command, the most of all sentences, and ends with status 1 where one is above.
set -eu
. "$(dirname -- "$(readlink -f -- "${BASH_SOURCE[0]}")")/setup.sh"
build_program
env -u BENCH_QUICK "$root/explain" rules "$root/studies/dictatorship.toml" >/dev/null
repeated() { # PIECE TIMES
    local i
    for ((i = 0; i < $2; i++)); do printf '%s' "$1"; done
}
study() { # NAME KIND AXIOMS SENTENCE
    local atom='wins(@b, p)'
    [ "$2" != ranking ] || atom='ranks(@b, @a, p)'
    cat >"$work/$1.toml" <<TOML
kind = "$2"
voters = 2
alternatives = 2
conflicts = 100
axioms = [$3]

[sentences]
deep = "$4"
other = "all p: profile. $atom"
TOML
}
study signs choice '"deep", "other"' "all p: profile. $(repeated '!' 61)wins(@b, p)"
study set_signs sets '"deep", "other"' "all p: profile. $(repeated '!' 61)wins(@b, p)"
study ranked_signs ranking '"deep", "other"' "all p: profile. $(repeated '!' 61)ranks(@b, @a, p)"
study groups choice '"deep", "other"' "all p: profile. $(repeated '(' 61)wins(@a, p)$(repeated ' & wins(@a, p))' 61)"
study calls choice '"deep"' "all x: alt. $(repeated 'swap(x, x, ' 61)x$(repeated ')' 61) = x"
quantified='all p: profile. '
for i in 1 2 3 4 5; do quantified+="all x$i: alt. some y$i: alt. "; done
quantified+="some z: alt. $(repeated '!' 48)"
study quantifiers choice '"deep"' "$quantified(wins(swap(x1, x1, x1), p) | z = y5)"
study set_quantifiers sets '"deep"' "$quantified(wins(swap(x1, x1, x1), p) | z = y5)"
study ranked_quantifiers ranking '"deep"' "$quantified(ranks(swap(x1, x1, x1), z, p) | z = y5)"
names=(signs set_signs ranked_signs groups calls quantifiers set_quantifiers ranked_quantifiers)
for name in "${names[@]}"; do
    "$program" decide "$work/$name.toml" >"$work/$name.report"
    "$program" proof "$work/$name.toml" >"$work/$name.lrat"
done
answers() { # KB, WORDS: what is written within so much stack, and the status
    (ulimit -s "$1" && shift && "$ran" "$@"; echo "status $?") 2>/dev/null || true
}
least() { # WORDS: the least stack by halving, to 16 KB
    local low=0 high=65536 middle wanted
    wanted=$(answers "$high" "$@")
    case $wanted in *"status 0") ;; *) echo "$* does not end with status 0" >&2; exit 1 ;; esac
    while [ $((high - low)) -gt 16 ]; do
        middle=$(((low + high) / 2))
        if [ "$(answers "$middle" "$@")" = "$wanted" ]; then high=$middle; else low=$middle; fi
    done
    echo "$high"
}
status=0
for command in decide check export proof adopt gain sharpen story rules cores study instance; do
    most=0
    ran=$program counts=(1 2)
    case $command in
        gain) counts=(0) ;;
        story | rules | cores | study) ran=$root/crates/explain/out/explain ;;
        instance) ran=$root/crates/explain/out/explain counts=(0) ;;
    esac
    for name in "${names[@]}"; do
        words=("$command" "$work/$name.toml")
        case $command-$name in
            check-* | story-* | gain-set_*) words+=("$work/$name.report") ;;
            gain-*) continue ;;
            instance-*) words+=(deep 0) ;;
            adopt-calls | adopt-*quantifiers) continue ;;
            adopt-*) words+=("$work/$name.lrat") ;;
        esac
        for workers in "${counts[@]}"; do
            with=()
            [ "$workers" = 0 ] || with=(--workers "$workers")
            found=$(least "${words[@]}" "${with[@]}")
            if [ "$found" -gt "$most" ]; then most=$found; fi
        done
    done
    echo "$command $most KB of 2048"
    [ "$most" -le 2048 ] || status=1
done
exit $status
