#!/usr/bin/env bash
# The places in src/ that the points of docs/DESIGN-PASS.md speak of: `tools/places.sh` counts them by point,
# `tools/places.sh N` prints those of point N. Run at the top of the repository.
set -euo pipefail
src() { git ls-files 'crates/*/src/*.rt'; }
code() { src | grep -v '/tests\.rt$'; }
find_in() { xargs grep -HnE "$1" | grep -vE '^[^:]*:[0-9]+:\s*//' || true; }
places() {
  case $1 in
    1) src | find_in '^\s*(pub )?enum |-> u8$|-> u8 \{|None => (Err\(|false|return)|Some\(\w+\) => (Ok\(|\w+ )|const NO_PLACE|entry: bool' ;;
    2) code | find_in 'fn \w+_u(8|32|64)\b|fn (zero|empty)_part|fn (rows_)?before\b|fn (wide|bound)\(|fn (write_record|encode)\b.*[({]$|fn read_(value|stored)\b' ;;
    3) src | find_in '^\s*(for|while|loop)\b' ;;
    4) src | find_in 'impl .*(Display|PartialEq|From)\b.* for|fn same_\w+|&& self\.\w+ ==|fn number\(|let (first|second) = rest\[|from\[[0-9]\]' ;;
    5) code | find_in '\bgood (self|journal|table)\.|\.good |ensures good|next_section: u64|let used = self\.used|Rising 0 \(numbers|IsSplitGood K|IsLogGood K|IsByteGood |IsStagedGood ' ;;
    6) code | find_in '^\s*(used|len|durable_len|entries|at): usize,|while low < high|text: \[u8' ;;
    7) code | find_in 'fn\(|\bdyn\b|match (step|which|kind)\b' ;;
    8) git ls-files 'crates/*/proofs/*.antt' ;;
  esac
}
if [ $# -gt 0 ]; then
  places "$1"
else
  for point in 1 2 3 4 5 6 7 8; do
    printf 'point %s: %s\n' "$point" "$(places "$point" | wc -l)"
  done
  printf 'lines of proofs: %s\n' "$(git ls-files 'crates/*/proofs/*.antt' | xargs cat | wc -l)"
fi
