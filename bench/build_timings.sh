#!/usr/bin/env bash
# Proves and builds the timings of bench/timings, which the gate leaves out: as a crate of a copy of the tree, over the
# libraries that are proved there. `bench/build_timings.sh FOLDER` makes the copy in FOLDER, and prints where the program is.
set -euo pipefail
folder=$(realpath -m "$1")/tree
cd "$(dirname "$0")/.."
crate=$folder/crates/test_timings
mkdir -p "$folder"
cp -r crates.txt HANDLES crates "$folder"
rm -rf "$folder"/crates/{test_library,example_crawl}
sed -i '/^test_library /d; /^example_crawl /d' "$folder/crates.txt"
uses="gopher_item gopher_text gopher_page gopher_scope gopher_index gopher_catalogue gopher_crew"
echo "test_timings tests_may=Threads+Wait: $uses" >> "$folder/crates.txt"
mkdir -p "$crate/src" "$crate"/proofs/{timed_crawls/measure_by,timed_formats/text_lines}
for file in bench/timings/*.rattle; do
    cp "$file" "$crate/src/$(basename "$file" .rattle).rt"
done
# the names of the blank that a crawl makes
cat > "$crate/proofs/timed_crawls/measure_by/Invariants.antt" << 'END'
use Rattle.test_timings.proofs.timed_crawls.measure_by.Given as goal

abbrev pub ghosts-crawled-C-Ledger : goal.ghosts-crawled-C-Ledger
ghosts-crawled-C-Ledger g a = record { name = a.blank.name; parts = a.blank.parts }

abbrev pub ghosts-crawled-C-Crew : goal.ghosts-crawled-C-Crew
ghosts-crawled-C-Crew g a = record { history = a.blank.history }
END
# what the loop over the lines of a text keeps
cat > "$crate/proofs/timed_formats/text_lines/Invariants.antt" << 'END'
use Rattle.std.proofs.Common.{length}
use Rattle.gopher_text.specs.Text.{HoldNoFeed, lines_in}
use Rattle.test_timings.proofs.timed_formats.text_lines.Given as goal

abbrev pub invariant-loop-line : goal.invariant-loop-line
invariant-loop-line l = HoldNoFeed (lines_in l.lines.items)

abbrev pub decreases-loop-line : goal.decreases-loop-line
decreases-loop-line l = length l.rest
END
(cd "$crate" && rt test > "$folder/output") || { tail -n 30 "$folder/output" >&2; exit 1; }
echo "$crate/out/test_timings_tests"
