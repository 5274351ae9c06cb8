#!/usr/bin/env bash
# Prints each page of pages/, or each page that is named, with headless Chromium (Debian's package), and says for each how many
# printed A4 pages it has, whether all of it is within the width of the paper and each table within what holds it, as it is printed, and
# how many errors `tidy` finds; and how many lines the story of its report has, in studies/, and how many sentences its proof. A line of
# its own has the seconds of the shortest of five runs of the built `explain` that write it, and the peak of the heap of one, as
# valgrind's massif counts it with what the allocator adds.
# Where Chromium, tidy, valgrind or the built program is missing, it says so, and what needs it is left out. It ends with status 1 where a
# page or a table of it is too wide, or a page has an error, more than 2 printed pages (arrow_four 3) or more sentences than 30 (arrow),
# 90 (arrow_four) or 130 (gibbard_satterthwaite), and where a report of 100,000 bytes or more takes four times as much memory, or a second.
set -u
root=$(cd -- "$(dirname -- "$(readlink -f -- "${BASH_SOURCE[0]}")")/.." && pwd) || exit 1
work=$(mktemp -d) || exit 1
trap 'rm -rf "$work"' EXIT
browser=$(command -v chromium || command -v chromium-browser || true)
checker=$(command -v tidy || true)
[ -n "$browser" ] || echo "pages: no chromium here: nothing is printed" >&2
[ -n "$checker" ] || echo "pages: no tidy here: nothing is checked" >&2
program=$root/crates/explain/out/explain
[ -x "$program" ] || { echo "pages: explain is not built: nothing is measured" >&2; program=; }
measurer=$(command -v valgrind || true)
[ -n "$measurer" ] || { echo "pages: no valgrind here: nothing is measured" >&2; program=; }
[ -z "$program" ] || rustc -O --edition 2021 -o "$work/peak" "$root/measure/peak.rs" || exit 1
faults=0

# Chromium without a screen.
headless() { timeout 120 "$browser" --headless --no-sandbox --disable-gpu --allow-file-access-from-files "$@" 2>/dev/null; }

# How many sentences the proof of a page has: its items, each of which is one.
sentences() { sed -n '/^<h2>Proof/,/^<h2>[^P]/p' "$1" | grep -c '<li>'; }

# The peak of the heap of a command, in bytes.
heap_of() {
    "$measurer" --tool=massif --peak-inaccuracy=0 --massif-out-file="$work/massif" "$@" >/dev/null 2>&1
    awk -F= '/^mem_heap_B=/ { heap = $2 } /^mem_heap_extra_B=/ && heap + $2 > most { most = heap + $2 } END { print most + 0 }' "$work/massif"
}

# What the page of a report takes: seconds, and memory beside the bytes of the report. Status 1 where it is too much of a large report.
costs() {
    local name=$1 report=$2 bytes seconds heap
    bytes=$(wc -c <"$report")
    seconds=$("$work/peak" 5 "$program" story "${report%.*}.toml" "$report" | awk 'NR == 1 { print $1 }')
    heap=$(heap_of "$program" story "${report%.*}.toml" "$report")
    awk -v name="$name" -v s="$seconds" -v heap="$heap" -v bytes="$bytes" 'BEGIN {
        printf "%s: %s s, heap %d bytes, %.2f times the report\n", name, s, heap, heap / bytes
        exit bytes >= 100000 && (heap >= 4 * bytes || s >= 1)
    }'
}

# How many pages a PDF has.
printed() { grep -a -c '/Type[[:space:]]*/Page\([^s]\|$\)' "$1"; }

# How many printed pages, and how many sentences, the page of a study may have.
most_printed() { [ "$1" = arrow_four ] && echo 3 || echo 2; }
most_sentences() {
    case $1 in
    arrow) echo 30 ;;
    arrow_four) echo 90 ;;
    gibbard_satterthwaite) echo 130 ;;
    *) echo 1000000 ;;
    esac
}

# By how much a page is wider than the paper within its margins of 8 mm, which is 194 mm or 733 dots at 96 an inch, or a table wider than
# what holds it, whichever is more, in the styles of print. A fold that is closed is not printed.
excess() {
    sed 's/@media print/@media all/' "$1" >"$work/printed.html"
    cat >"$work/frame.html" <<HTML
<!doctype html><title>frame</title><body><iframe id=page style="width:733px;height:60000px;border:0" src="file://$work/printed.html"></iframe>
<script>onload=()=>{const d=document.getElementById('page').contentDocument,w=e=>parseFloat(d.defaultView.getComputedStyle(e).width)||0;
let most=d.documentElement.scrollWidth-733;for(const t of d.querySelectorAll('table'))if(!t.closest('details:not([open])'))most=Math.max(most,w(t)-w(t.parentElement));
document.title='excess '+Math.ceil(most-.5)}</script>
HTML
    headless --dump-dom "file://$work/frame.html" | sed -n 's/.*<title>excess \(-\{0,1\}[0-9]*\)<.*/\1/p'
}

[ $# -gt 0 ] || set -- "$root"/pages/*.html
for page in "$@"; do
    page=$(readlink -f -- "$page")
    line=$(basename "$page")
    study=${line%%.*}
    report=$root/studies/${line%.html}.report
    [ "$line" = "${line%.sharp.html}" ] || report=$root/studies/${line%.html}
    lines=$(grep -c '^suppose \|^so \|^clash ' "$report" 2>/dev/null)
    said=$(sentences "$page")
    line="$line: lines of the story ${lines:-?}, sentences $said"
    [ "$said" -le "$(most_sentences "$study")" ] || faults=$((faults + 1))
    if [ -n "$browser" ]; then
        headless --print-to-pdf="$work/page.pdf" "file://$page" >/dev/null
        wide=$(excess "$page")
        sheets=$(printed "$work/page.pdf")
        line="$line, printed pages $sheets, wider by ${wide:-?}"
        [ "${wide:-1}" -le 0 ] || faults=$((faults + 1))
        [ "$sheets" -ge 1 ] && [ "$sheets" -le "$(most_printed "$study")" ] || faults=$((faults + 1))
    fi
    if [ -n "$checker" ]; then
        "$checker" -q -e "$page" >"$work/tidy" 2>&1
        errors=$(grep -c ' - Error: ' "$work/tidy")
        line="$line, errors $errors"
        [ "$errors" -eq 0 ] || faults=$((faults + 1))
    fi
    echo "$line"
    if [ -n "$program" ] && [ -f "$report" ]; then
        costs "$(basename "$page")" "$report" || faults=$((faults + 1))
    fi
done
[ "$faults" -eq 0 ]
