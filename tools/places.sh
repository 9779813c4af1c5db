#!/usr/bin/env bash
# Counts, in the sources of all crates, the lines that show an older form. Each hit is a place to look at, not a verdict.
# usage: tools/places.sh [-v]     -v prints the lines
set -euo pipefail
cd "$(dirname "$0")/.."
show=${1:-}
files=$(find crates -path '*/out' -prune -o -path '*/src/*' -name '*.rt' -print | sort)
count() {
  local hits
  hits=$(grep -nE "$2" $files | grep -vE "${3:-^$}" || true)
  echo "$1: $(printf '%s' "$hits" | grep -c '' || true)"
  if [ "$show" = -v ] && [ -n "$hits" ]; then printf '%s\n' "$hits" | sed 's/^/    /'; fi
}
count '1 flags beside values, codes, numbers for cases' '^ *(pub(\(crate\))? )?[a-z_]+: bool,|fn [a-z_]+\(.*&mut.*-> bool|let Ok\(.*else|=> [0-9]+,$|return [0-9]+;|fn mark_told'
count '2 functions and types that have a twin' 'fn (rises|lawful|is_lawful|blanks|line_length|lower_in_full|lower_at_once|job_sums|work_sums)\b|fn checked\(values|struct (Energies|Prices)\b'
count '3 loops by index, and searches in a loop' '^ *(while |loop \{|for .* in .*(\.\.|\.enumerate\(\)))'
count '4 conversions, orders and choices written out' '^impl.* (From|PartialEq|Ord|PartialOrd|Display)\b|(Ok|Some)\([a-z]+\) => (Ok|Some)\(|Err\(_\) => Err|\.[a-z]+ != [a-z]+\.|\.due == [a-z]+\.due|^ *None$|^ *other$'
count '5 clauses that say again a fact of a value' 'requires.*(count ≤ 64|window\.|speeds\.now ≤ 16|slots ≤ 96)'
count '6 arrays' '\[[A-Za-z0-9_]+; [0-9A-Z_]+\]' '/(tests|trials)\.rt|const N|main\.rt:(1[2-9][0-9]|2[0-9][0-9])'
count '7 switches on which step to run' 'dyn |if in_odd'
