#!/usr/bin/env bash
# Holds the program against the reports beside the studies: over each study `decide` writes its report byte for byte and `check`
# confirms it, as it does another rule over studies/median_voter.toml, and over studies/anonymity_neutrality.toml each report in
# studies/refused/ is refused with the line that docs/FORMATS.md shows. Over each study without a rule `adopt` takes what `proof`
# writes, and `check` confirms its report; `sharpen` writes the sharp text beside it, NAME.sharp, byte for byte, and `check` confirms it, but
# for arrow_four, of which sharpening takes more than ten seconds. Over each study of sets `gain` writes what stands beside it, as
# NAME.gain, and it refuses every other study. docs/START.md shows the studies and reports that stand here, and a sentence is answered as
# it shows. Where all is so, nothing is written; else a line for each fault, and the status is 1.
# `export` of Arrow's axioms for four alternatives is the same with 1, 2 and 16 workers, and takes an axiom of 21,233,664 instances but
# none of 84,934,656; a sample is the same line at each run, no words end with status 2, as does a word that is not UTF-8, an absent study
# with status 5, and a full device with 6. Each front of a report is refused at the line that it lacks, and a study of one byte too many and
# a list of one clause too many are refused.
# The pages in pages/ are those that `explain story` writes of the reports of their names, and of sharp texts where the names end in .sharp;
# each sharp text has a page; their words for the axioms of the library are those of docs/START.md.
# Arrow's axioms without the last leave the two dictators, and independence alone 94 rules (Tang and Lin), as `explain rules` lists them; of
# all three `explain cores` writes the map of docs/START.md.
# The launcher, over this program or over one that only ends, and that of explain, has the program's status and standard output, and says in one line on
# standard error what a status without an answer means, and where the toolchain is missing.
# docs/PHRASES.md is held by studies/phrases.py, with what it shows of instances, rules and many studies; the sizes of docs/START.md and the
# values that it lists of axioms are tried, as are the story that docs/STORIES.md writes by hand, known rules, and a copy of the program that
# stands alone. The clauses of library axioms, and the rules of the reports, are those of measure/encode.py, and the clauses of sixty studies with
# sentences drawn at random those of measure/sentences.py; neither shares anything with the program.
# The program is the one that the launcher runs, which is proved and built first where a source is newer; with --built, as after `rt ci`,
# the one that stands there. No proof rests on this.
set -u
root=$(cd -- "$(dirname -- "$(readlink -f -- "${BASH_SOURCE[0]}")")/.." && pwd) || exit 1
work=$(mktemp -d) || exit 1
trap 'rm -rf "$work"' EXIT
program=$root/crates/bench/out/bench
explain=$root/crates/explain/out/explain
if [ "${1-}" != --built ]; then
    env -u BENCH_QUICK "$root/bench" axioms choice >"$work/written" || exit 1
    env -u BENCH_QUICK "$root/explain" story "$root/studies/arrow.toml" "$root/studies/arrow.report" >"$work/written" || exit 1
fi
faults=0

fault() {
    printf 'studies: %s\n' "$*" >&2
    faults=$((faults + 1))
}

# Runs the program, and takes what it wrote and its status.
answer() {
    "$program" "$@" >"$work/written"
    status=$?
}

# Whether the program ended with a status and wrote one line.
is_line() {
    [ "$status" -eq "$1" ] && printf '%s\n' "$2" | cmp -s - "$work/written"
}

for page in "$root"/pages/*.html; do
    name=$(basename "$page" .html)
    text=$name.report
    [ "$name" = "${name%.sharp}" ] || text=$name
    (cd "$root" && "$explain" story "studies/${name%.sharp}.toml" "studies/$text") >"$work/written" || fault "explain gives $name no page"
    cmp -s "$page" "$work/written" || fault "explain does not write pages/$name.html"
done

# What a page says of an axiom of the library is what docs/START.md says of it.
sed -n 's/^ *return b": \(.*\)\.";$/\1/p' "$root/crates/pages/src/words.rt" >"$work/worded"
[ "$(wc -l <"$work/worded")" -eq 21 ] || fault "pages have words for another number of axioms than 21"
while IFS= read -r words; do
    grep -qF "| $words |" "$root/docs/START.md" || fault "docs/START.md does not say of an axiom what pages do: $words"
done <"$work/worded"

for text in "$root"/studies/*.sharp; do
    name=$(basename "$text" .sharp)
    "$explain" story "$root/studies/$name.toml" "$text" >"$work/written" || fault "explain gives the sharp text of $name no page"
    grep -q '^</body></html>$' "$work/written" || fault "the page of the sharp text of $name has no end"
done

# What leaves one outcome at a profile is said of the facts of that profile: two such steps that rest on other claims are two sentences.
printf '%s\n' 'kind = "choice"' 'voters = 1' 'alternatives = 5' 'axioms = ["pareto", "same"]' '[sentences]' \
    'same = "all p: profile. all q: profile. all x: alt. all y: alt. ((wins(x, p) & wins(y, q)) -> x = y)"' >"$work/left.toml"
{
    printf '%s\n' 'bench report 1' 'kind choice' 'voters 1' 'alternatives 5' 'axioms pareto same' 'verdict impossible' 'core pareto same' \
        'lemmas 1' 'lemma 1'
    for loser in b c d e; do echo "so !$loser@abcde by axiom pareto abcde a $loser"; done
    for loser in a c d e; do echo "so !$loser@bacde by axiom pareto bacde b $loser"; done
    printf '%s\n' 'so a@abcde by outcome abcde' 'so b@bacde by outcome bacde' 'clash by axiom same abcde bacde a b' \
        'without pareto open 100000' 'without same open 100000' end
} >"$work/left.report"
"$explain" story "$work/left.toml" "$work/left.report" >"$work/written" || fault "explain gives the story of two winners no page"
[ "$(grep -c '<li>.*by what is left' "$work/written")" -eq 2 ] || fault "explain says of two profiles at once what other facts leave at each"
grep -qF 'Without <i>same</i> it is not known whether some rule satisfies the others: the search gave up after 100000 conflicts.' "$work/written" ||
    fault "explain does not say of an open mark that nothing is known"

# Where nothing is left at a profile, a fact of another one follows, which `check` confirms: "there" would be that other one.
sed 's/^clash/so a@abc|abc by outcome cab|bca\nclash/' "$root/studies/paretian_liberal.report" >"$work/elsewhere.report"
"$explain" story "$root/studies/paretian_liberal.toml" "$work/elsewhere.report" >"$work/written" ||
    fault "explain gives a fact of another profile than that where nothing is left no page"
grep -q '<b>c</b> does not win at <code>cab·bca</code></div></div>, by what is left: <div><b>a</b> wins at <code>abc·abc</code>' "$work/written" ||
    fault "explain does not say at which profile nothing is left where a fact of another one follows"
grep -qF '<b>c</b> does not win</div> there</div>, nothing is left at <code>cab·bca</code>' "$work/written" ||
    fault "explain does not say that nothing is left by claims there"

lists() { # ENDING AXIOMS: which ending the list of the rules of two voters over three alternatives has
    printf '%s\n' 'kind = "ranking"' 'voters = 2' 'alternatives = 3' "axioms = [$2]" >"$work/listed.toml"
    "$explain" rules "$work/listed.toml" --workers 2 >"$work/written"
    [ "$(tail -n 2 "$work/written" | head -n 1)" = "$1" ] || fault "explain rules does not end in \"$1\" for $2"
}
lists 'rules 2' '"pareto", "independence"'
lists 'rules 94' '"independence"'

"$explain" cores "$root/studies/arrow.toml" >"$work/written"
[ $? -eq 0 ] && sed -n '/^    impossible /,/^$/s/^    //p' "$root/docs/START.md" | cmp -s - <(grep -E '^(im)?possible ' "$work/written") ||
    fault "explain does not map Arrow's axioms as docs/START.md shows"

for study in "$root"/studies/*.toml; do
    report=${study%.toml}.report
    name=$(basename "$study" .toml)
    verdict=$(sed -n 's/^verdict //p' "$report")
    answer decide "$study"
    [ "$status" -eq 0 ] && cmp -s "$report" "$work/written" || fault "decide does not write $name.report"
    answer check "$study" "$report"
    is_line 0 "confirmed $verdict" || fault "check does not confirm $name.report"
    said=yes
    [ "$verdict" = possible ] || said=no
    grep -F "\`$name\`" "$root/docs/START.md" | grep -q "^| .* | $said |\$" || fault "docs/START.md does not list $name as $said"
    answer gain "$study" "$report"
    if grep -qx 'kind = "sets"' "$study"; then
        [ "$status" -eq 0 ] && cmp -s "${study%.toml}.gain" "$work/written" || fault "gain does not write $name.gain"
    else
        is_line 3 'study: kind not sets' || fault "gain takes $name, which is not of sets"
    fi
    if ! grep -q '^\[sentences' "$study" && [ "$name" != arrow_four ]; then
        python3 "$root/measure/encode.py" "$study" "$report" >"$work/written" || fault "measure/encode.py refuses a rule of $name.report"
    fi
    [ "$verdict" = impossible ] || continue
    answer proof "$study"
    mv "$work/written" "$work/proof"
    answer adopt "$study" "$work/proof"
    [ "$status" -eq 0 ] || fault "adopt of what proof writes of $name ends with status $status"
    mv "$work/written" "$work/report"
    answer check "$study" "$work/report"
    is_line 0 "confirmed impossible" || fault "check does not confirm what adopt writes of $name"
    sharp=${study%.toml}.sharp
    [ "$name" != arrow_four ] || continue
    answer sharpen "$study"
    [ "$status" -eq 0 ] && cmp -s "$sharp" "$work/written" || fault "sharpen does not write $name.sharp"
    answer check "$study" "$sharp"
    is_line 0 "confirmed sharp" || fault "check does not confirm $name.sharp"
done

# The median of the three favourites, which is not the rule that `decide` writes.
answer check "$root/studies/median_voter.toml" "$root/studies/median_of_three.report"
is_line 0 'confirmed possible' || fault "check does not confirm median_of_three.report"

answer
[ "$status" -eq 2 ] || fault "no words end with status $status"
answer check "$work/absent" "$work/absent"
[ "$status" -eq 5 ] || fault "an absent study ends with status $status"
answer decide $'\xff'
[ "$status" -eq 2 ] && grep -q '^usage: ' "$work/written" || fault "a word that is not UTF-8 ends with status $status"
"$program" axioms choice >/dev/full
status=$?
[ "$status" -eq 6 ] || fault "a full device ends with status $status"

# The program stands alone, takes of the machine what README.md names, and runs many times at once.
mkdir "$work/alone"
cp "$program" "$work/alone/bench"
cp "$root/studies/arrow.toml" "$root/studies/arrow.report" "$work/alone"
for run in {1..8}; do
    (cd "$work/alone" && exec env -i ./bench check arrow.toml arrow.report) >"$work/alone/$run" &
done
wait
cat "$work"/alone/[1-8] | uniq -c | grep -qx ' *8 confirmed impossible' || fault "copies of the program do not all confirm arrow.report"
for library in $(ldd "$program" | sed -nE 's/^\s*(\S*\/)?(lib[a-z_]*|ld-linux-x86-64)\.so.*/\2/p'); do
    grep -qF "\`$library\`" "$root/README.md" || fault "the program takes $library, which README.md does not name"
done

# The launchers stand in a tree of their own, so that their programs are never built anew here.
tree=$work/tree
mkdir -p "$tree/crates/bench/out" "$tree/crates/explain/out"
cp "$root/bench" "$root/explain" "$root/launch.sh" "$tree"
: >"$tree/crates.txt"
cp "$program" "$tree/crates/bench/out/bench"
cp "$explain" "$tree/crates/explain/out/explain"

launches() { # STATUS SAID WORDS.., where SAID is what stands on standard error
    local wanted=$1 said=$2
    shift 2
    answer "$@"
    "$tree/bench" "$@" >"$work/launched" 2>"$work/said"
    [ $? -eq "$status" ] && [ "$status" -eq "$wanted" ] && cmp -s "$work/launched" "$work/written" &&
        [ "$(<"$work/said")" = "$said" ] || fault "the launcher does not do as the program, or not say \"$said\""
}

unread() { # WORD FAULT
    launches 5 "bench: this file could not be read: $(printf '%q' "$1") ($2)" "${@:3}"
}

paradox=$root/studies/paretian_liberal
launches 0 '' check "$paradox.toml" "$paradox.report"
launches 0 '' check "$paradox.toml" "$paradox.report" <&-
launches 1 '' check "$paradox.toml" "$root/studies/unanimity.report"
launches 3 '' decide "$paradox.report"
launches 2 "bench: these words are no command; $tree/docs/FORMATS.md explains them under \"Commands\"" check "$paradox.toml"
grep -qx '## Commands' "$root/docs/FORMATS.md" || fault "docs/FORMATS.md has no part \"Commands\""
unread "$work/absent" 'it is not there' check "$paradox.toml" "$work/absent"
unread "$work/absent" 'it is not there' check --workers 4 -- "$work/absent" "$work/none"
unread "$work" 'it is a folder' decide "$work"
unread "$PWD/-x" 'it is not there' check "$paradox.toml" -- -x
answer check "$paradox.toml" "$paradox.report"
"$program" decide "$paradox.toml" | "$tree/bench" check "$paradox.toml" /dev/stdin 2>&1 | cmp -s - "$work/written" ||
    fault "the launcher does not check what decide writes into a pipe"

(cd "$root" && "$tree/explain" story studies/arrow.toml studies/arrow.report) 2>&1 | grep -q '^<!doctype html>$' ||
    fault "the launcher of explain does not write a page"
said=$("$tree/explain" story "$paradox.toml" "$work/absent" 2>&1)
[ $? -eq 5 ] && [ "$said" = "explain: this file could not be read: $work/absent (it is not there)" ] ||
    fault "the launcher of explain does not say which file could not be read"

for words in 'rules --most 3' 'rules' 'cores --workers 2'; do
    said=$(cd "$work" && "$tree/explain" $words absent 2>&1)
    [ $? -eq 5 ] && [ "$said" = "explain: this file could not be read: $work/absent (it is not there)" ] ||
        fault "the launcher of explain does not say which study of $words could not be read"
done
said=$("$tree/explain" story "$paradox.toml" 2>&1 >"$work/launched")
[ $? -eq 2 ] && [ "$said" = "explain: these words are no command; $tree/docs/FORMATS.md explains them under \"What explain writes\"" ] ||
    fault "the launcher of explain does not say where its words are explained"
grep -qx '## What explain writes' "$root/docs/FORMATS.md" || fault "docs/FORMATS.md has no part \"What explain writes\""

printf '%s\n' 'kind = "choice"' 'voters = 3' 'alternatives = 3' 'axioms = ["strategyproof"]' >"$work/mine.toml"
"$tree/explain" instance "$work/mine.toml" strategyproof 2280 2>&1 |
    cmp -s - <(sed -n '/^    axiom strategyproof abc/,/^    body /s/^    //p' "$root/docs/FORMATS.md") ||
    fault "explain does not tell the instance that docs/FORMATS.md shows"
(cd "$work" && "$tree/explain" instance mine.toml strategyproof 2280) 2>&1 | grep -q '^body ' || fault "the launcher of explain does not find a study"

ends() { # STATUS SAID: of a program that only ends with a status
    printf '#!/bin/sh\nexit %s\n' "$1" >"$tree/crates/bench/out/bench"
    [ "$("$tree/bench" decide "$paradox.toml" 2>&1)" = "$2" ] || fault "the launcher does not say \"$2\" at status $1"
}

ends 5 'bench: a file of the command could not be opened or read'
ends 6 'bench: standard output could not be written, so the answer is cut off'
ends 7 'bench: no memory was found, so there is no answer'
rm "$tree/crates/bench/out/bench"
without=
while IFS= read -r -d : folder; do
    [ -x "$folder/rt" ] || without=$without${without:+:}$folder
done <<<"$PATH:"
said=$(PATH=$without "$tree/bench" axioms choice 2>&1)
[ $? -eq 70 ] && [[ $said == "bench: the Rattle toolchain is missing: "*"$tree/README.md"*\"What\ you\ need\"* ]] ||
    fault "the launcher does not say that the toolchain is missing"
grep -qx '## What you need' "$root/README.md" || fault "README.md has no part \"What you need\""

# Each front of a report, with the end of its last line and without it.
whole=$root/studies/anonymity_neutrality.report
for ((line = 1; line <= $(wc -l <"$whole"); line++)); do
    head -n $((line - 1)) "$whole" >"$work/front"
    head -n "$line" "$whole" | head -c -1 >"$work/open_front"
    for front in front open_front; do
        answer check "--workers=$((line % 2 ? 1 : 16))" "$root/studies/anonymity_neutrality.toml" "$work/$front"
        is_line 1 "refused line $line: form" || fault "a report that is cut off at line $line is not refused there"
    done
done

# A study of 1,048,576 bytes, and one of a byte more.
size=$(wc -c <"$root/studies/unanimity.toml")
{ cat "$root/studies/unanimity.toml"; printf '#%*s' $((1048575 - size)) ''; } >"$work/long.toml"
answer check "$work/long.toml" "$root/studies/unanimity.report"
is_line 0 'confirmed possible' || fault "a study of a mebibyte is refused"
printf ' ' >>"$work/long.toml"
answer check "$work/long.toml" "$root/studies/unanimity.report"
is_line 3 'study: too long' || fault "a study of a byte more than a mebibyte is not refused"

# Clauses of which there is one too many.
{ echo 'p cnf 0 4000001'; yes 0 | head -n 4000001; } >"$work/full.cnf"
answer lrat "$work/full.cnf" "$work/absent"
is_line 3 'cnf: full' || fault "4,000,001 clauses are not refused"

shown=0
while read -r file line; do
    shown=$((shown + 1))
    answer check "$root/studies/anonymity_neutrality.toml" "$root/studies/refused/$file"
    is_line 1 "$line" || fault "check does not say of refused/$file: $line"
done < <(sed -n 's/^| `\([a-z_]*\.report\)` | `\(refused [^`]*\)` |$/\1 \2/p' "$root/docs/FORMATS.md")
[ "$shown" -eq "$(find "$root/studies/refused" -name '*.report' | wc -l)" ] || fault "docs/FORMATS.md does not show each report in refused/"

# The study with which docs/START.md shows how to write an axiom, written otherwise: each wrong sentence is refused by the line that
# stands there, and what is asked beside it has the answer that stands there.
sentence=$(sed -n 's/^never_last = "\(.*\)"$/\1/p' "$root/studies/never_last.toml")
shows() { # LINE
    grep -qxF -- "    $1" "$root/docs/START.md"
}
begins() { # LINES of the study or report that follows, its NAME, and the PAGE that shows them one after another, docs/START.md
    local shown page=docs/${3-START.md}
    shown=$(sed 's/^/    /' | head -n "$1")
    [[ $(<"$root/$page") == *$'\n'"$shown"$'\n'* ]] || fault "$page does not show the first $1 lines of $2"
}

for study in condorcet_strategyproof arrow; do
    begins 4 "$study.toml" < <(grep -v '^#' "$root/studies/$study.toml")
done
begins 16 condorcet_strategyproof.report <"$root/studies/condorcet_strategyproof.report"
begins 8 arrow.report <"$root/studies/arrow.report"
grep -q "^The report has $(wc -l <"$root/studies/arrow.report") lines" "$root/docs/START.md" ||
    fault "arrow.report has other lines than docs/START.md counts"
shows "$(<"$root/studies/manipulable.gain")" || fault "docs/START.md shows another gain than manipulable.gain"
shows "never_last = \"$sentence\"" || fault "docs/START.md shows another sentence than never_last.toml"

ask() { # COMMAND ALTERNATIVES AXIOMS, what `never_last` says, and VOTERS where these are not two
    printf '%s\n' 'kind = "choice"' "voters = ${5-2}" "alternatives = $2" "axioms = [$3]" '[sentences]' "never_last = \"$4\"" >"$work/last.toml"
    answer "$1" "$work/last.toml"
}

# Whether this text stands in what was written.
has() {
    [[ $(<"$work/written") == *"$1"* ]]
}

wrong() { # SENTENCE LINE
    ask decide 3 '"never_last"' "$1"
    is_line 3 "study: never_last: $2" && grep -qF "\`study: never_last: $2\`" "$root/docs/START.md" ||
        fault "a wrong sentence is not refused as docs/START.md shows: $2"
}

wrong "${sentence/wins(x, p)/wins(z, p)}" 'unbound z'
wrong "${sentence/prefers(i, y, x, p)/prefers(i, y, x)}" 'arity prefers'
wrong "${sentence/prefers(i, y, x, p)/prefers(x, y, i, p)}" 'sort prefers 1'
wrong "${sentence/wins(x, p)/ranks(x, y, p)}" 'kind ranks'
without=${sentence/(all i/all i}
wrong "${without%)}" 'no reading'
wrong "${sentence/\!wins(x, p)/x = @d}" 'constant @d'
ask decide 3 '"onto", "never_last", "strategyproof", "non_dictatorship"' "$sentence"
[ "$status" -eq 0 ] && has $'\ncore onto strategyproof non_dictatorship\n' || fault "with onto never_last has another core"
ask decide 2 '"never_last"' "$sentence" 1
[ "$status" -eq 0 ] && has $'\nrule 2\nab a\nba b\n' || fault "never_last alone has another rule"
ask export 3 '"never_last"' 'some p: profile. (wins(@a, p) & wins(@b, with(p, #1, <bac>)))'
wide='study: never_last: wide 0 68719476736 2473901162496'
is_line 3 "$wide" && shows "$wide" || fault "a wide sentence is not refused as docs/START.md shows"
for limit in 5 10; do
    { echo "conflicts = $limit"; grep -v '^conflicts' "$root/studies/gibbard_satterthwaite.toml"; } >"$work/last.toml"
    answer decide "$work/last.toml"
    wanted=impossible
    [ "$limit" -eq 10 ] || wanted=undecided
    has $'\nverdict '"$wanted" || fault "gibbard_satterthwaite with conflicts = $limit is not $wanted, as docs/START.md says"
done

# The values that docs/START.md lists for each axiom of the library, and the story that docs/STORIES.md writes by hand.
for kind in choice ranking sets; do
    answer axioms "$kind"
    while read -r name sorts; do
        grep -qE "^\\| [^|]*\`$kind\`[^|]* \\| [^|]*\`$name\`[^|]* \\| \`$sorts\` \\|" "$root/docs/START.md" ||
            fault "docs/START.md does not list the values of $name of $kind: $sorts"
    done < <(sed -E 's/^([^:]*): ((all [a-z]+: [a-z]+\. )*).*/\1 \2/; s/all [a-z]+: ([a-z]+)\. /\1 /g; s/ $//' "$work/written")
done
by_hand() { # STATUS LINE EDIT: of the story with that edit
    sed -n '/^    bench report 1$/,/^    end$/s/^    //p' "$root/docs/STORIES.md" | sed -e "$3" >"$work/hand.report"
    answer check "$root/studies/anonymity_neutrality.toml" "$work/hand.report"
    is_line "$1" "$2" && grep -qF "\`$2\`" "$root/docs/STORIES.md" || fault "check does not say $2 of the story in docs/STORIES.md"
}
by_hand 0 'confirmed impossible' ''
by_hand 1 'refused line 16: not_forced' '/^so a@ab|ba by outcome/d'
by_hand 1 'refused line 19: open' 's/open 100000/open 7/'

# The sizes in docs/START.md: the most voters with which a study is taken, and one more. A study that is taken lets its report be opened.
takes() { # VOTERS ALTERNATIVES KIND AXIOM MORE
    printf '%s\n' "voters = $1" "alternatives = $2" "kind = \"$3\"" "axioms = [\"$4\"]" "${5-}" >"$work/size.toml"
    answer check "$work/size.toml" "$work/absent"
    [ "$status" -eq 5 ]
}

most() { # CELL ALTERNATIVES KIND AXIOM MORE
    local voters
    voters=$(grep -o '[0-9]*' <<<"$1" | tail -n 1)
    takes "$voters" "${@:2}" || fault "$voters voters and $2 alternatives are not taken with $4, as docs/START.md says"
    if [ "$2 $4" = "4 strategyproof" ]; then return; fi
    takes $((voters + 1)) "${@:2}" && fault "$((voters + 1)) voters and $2 alternatives are taken with $4, other than docs/START.md says"
}

rows=0
while IFS='|' read -r _ alternatives profiles pairs lies absences _; do
    rows=$((rows + 1))
    alternatives=${alternatives// /}
    most "$profiles" "$alternatives" choice unanimity
    most "$pairs" "$alternatives" choice maskin
    most "$pairs" "$alternatives" ranking independence
    most "$lies" "$alternatives" choice strategyproof
    most "$lies" "$alternatives" sets strategyproof
    most "$absences" "$alternatives" choice participation 'absent = true'
done < <(grep -E '^\| [2-5] \| 1' "$root/docs/START.md")
[ "$rows" -eq 4 ] || fault "docs/START.md has no table of four sizes"
refuses() { # VOTERS ALTERNATIVES KIND AXIOM LINE MORE
    takes "${@:1:4}" "${6-}"
    is_line 3 "$5" && grep -qF "$5" "$root/docs/START.md" || fault "a size is not refused as docs/START.md shows: $5"
}
refuses 3 4 choice participation 'study: participation: work 485968896' 'absent = true'
refuses 3 4 ranking independence 'study: independence: instances 3057647616'
refuses 3 4 sets strategyproof 'study: strategyproof: work 262766592'
refuses 3 5 choice unanimity 'study: profiles 1728000'
takes 3 4 choice strategyproof
answer export "$work/size.toml"
is_line 3 'study: strategyproof: full' || fault "strategyproof for 3 voters and 4 alternatives is not full"

# docs/PHRASES.md: its sentences, slips and studies, its counts of rules, and the answers over all sets of rankings.
python3 "$root/studies/phrases.py" "$program" || fault "docs/PHRASES.md is not as the program answers"
begins 4 may_only.toml PHRASES.md < <(grep -v '^#' "$root/studies/may_only.toml")
rows=0
while IFS='`' read -r _ study _ counted _; do
    rows=$((rows + 1))
    answer export "$root/$study"
    python3 "$root/studies/rules.py" <"$work/written" | grep -qxF "$counted" || fault "docs/PHRASES.md says $counted of $study"
done < <(grep -E '^\| `studies/.*` \| `[0-9]+ rules?` \|$' "$root/docs/PHRASES.md")
[ "$rows" -eq 4 ] || fault "docs/PHRASES.md counts the rules of $rows studies"

# Known rules as studies/rule.py writes them, and an instance at which one fails, as docs/PHRASES.md shows these.
known() { # COMMAND STATUS LINE STUDY RULE.., where KIND:AXIOM is a study of that axiom for 3 voters and 3 alternatives
    local study=$4
    if [[ $study == *:* ]]; then
        takes 3 3 "${study%:*}" "${study#*:}"
        study=$work/size.toml
    fi
    python3 "$root/studies/rule.py" "$study" "${@:5}" >"$work/known.report" || fault "rule.py does not write ${*:5}"
    answer "$1" "$study" "$work/known.report"
    is_line "$2" "$3" || fault "$1 says of the rule ${*:5}: $(head -n 1 "$work/written")"
}
phrased() { # LINE
    grep -qF "\`$1\`" "$root/docs/PHRASES.md" || fault "docs/PHRASES.md does not show: $1"
}
known gain 0 'voter 1 at abc|bac|bac gains by acb: a over b' sets:resolute borda abc
phrased "$(<"$work/written")"
known gain 0 'voter 3 at abc|abc|bac gains by bca: ab over a' sets:anonymity borda
phrased "$(<"$work/written")"
known check 1 'refused line 223: fails resolute 28' sets:resolute borda
known check 0 'confirmed possible' sets:condorcet condorcet
known check 0 'confirmed possible' choice:condorcet condorcet bca
known check 0 'confirmed possible' choice:pareto plurality cab
known check 0 'confirmed possible' "$root/studies/median_voter.toml" condorcet
known check 1 'refused line 351: fails participation 22627' "$root/studies/no_show.toml" condorcet
known check 0 'confirmed possible' "$root/studies/may_ties.toml" plurality
known check 0 'confirmed possible' choice:strategyproof dictator=2
known check 1 'refused line 223: fails strategyproof 2280' choice:strategyproof borda
phrased "$(<"$work/written")"
begins 1 explain PHRASES.md < <("$explain" instance "$work/size.toml" strategyproof 2280)

said_by() { # LINE SCRIPT WORDS..
    [ "$(python3 "$root/studies/$2" "${@:3}" 2>&1)" = "$1" ] || fault "$2 does not say: $1"
}
known_rules='borda, plurality, condorcet and dictator=I, for a voter I of the study'
said_by "rule: copeland is none of $known_rules" rule.py "$work/size.toml" copeland
said_by "rule: dictator=4 is none of $known_rules" rule.py "$work/size.toml" dictator=4
said_by 'rule: ca is no order of the alternatives' rule.py "$work/size.toml" borda ca
said_by 'abc|bac|bac 1 acb b a' instance.py "$program" "$work/size.toml" strategyproof 2280
said_by 'cba|cba|cba 3 cba c c' instance.py "$program" "$work/size.toml" strategyproof 34991
said_by 'instance: strategyproof has 34992 instances, numbered from 0' instance.py "$program" "$work/size.toml" strategyproof 34992
said_by 'this is no study: kind, voters or alternatives is missing' rule.py "$work/known.report" borda
sed 's/^voters.*/voters = 8/' "$work/size.toml" >"$work/large.toml"
said_by 'the study has too many profiles' instance.py "$program" "$work/large.toml" strategyproof 0
said_by 'rules: no clauses' rules.py </dev/null
said_by 'study: not toml' rules.py < <(echo kind | "$program" export /dev/stdin)
begins 99 domains.py PHRASES.md < <(python3 "$root/studies/domains.py" "$program" "$root/studies/gibbard_satterthwaite.toml")

# The clauses of the library's axioms, as an encoder writes them that shares nothing with the program.
python3 "$root/measure/encode.py" --hold "$program" >"$work/written" || fault "export writes other clauses than measure/encode.py"
python3 "$root/measure/sentences.py" "$program" 60 >"$work/written" || fault "export writes other clauses than measure/sentences.py"

for workers in 1 2 16; do
    answer export "$root/studies/arrow_four.toml" --workers "$workers"
    [ "$status" -eq 0 ] && grep -qx 'p cnf 3456 500546' "$work/written" || fault "export of arrow_four with $workers workers is another text"
    [ "$workers" -ne 1 ] || mv "$work/written" "$work/one"
    [ "$workers" -eq 1 ] || cmp -s "$work/one" "$work/written" || fault "export of arrow_four with $workers workers is not that with one"
done

for number in 0 1 32 383; do
    answer sample "$number"
    mv "$work/written" "$work/one"
    answer sample "$number"
    [ "$status" -eq 0 ] && cmp -s "$work/one" "$work/written" || fault "sample $number is not the same at each run"
done

# Writes a study of one axiom of 21,233,664 instances, or of more where further universals are given.
large() {
    printf '%s\n' 'kind = "choice"' 'voters = 2' 'alternatives = 4' 'axioms = ["big"]' '[sentences]' \
        "big = \"all p: profile. all q: profile. all x: alt. all y: alt. all z: alt. $1x = x\"" >"$work/big.toml"
}

large ''
answer export "$work/big.toml" --workers 4
[ "$status" -eq 0 ] && grep -qx 'p cnf 2304 4032' "$work/written" || fault "export of an axiom of 21,233,664 instances is another text"
large 'all w: alt. '
answer export "$work/big.toml"
is_line 3 'study: big: instances 84934656' || fault "export of an axiom of 84,934,656 instances is not refused"

[ "$faults" -eq 0 ]
