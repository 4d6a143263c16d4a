#!/usr/bin/env bash
# Lists, for each point of docs/DESIGN-PASS.md that a pattern can find, the lines of the sources that it finds; tests are
# left out. Run at the top of the repository, or with its folder as the first word.
set -euo pipefail
cd "${1:-.}"
src=$(ls crates/*/src/*.rt | grep -v '/tests\.rt$')
point() { printf '== %s: %s\n' "$1" "$(grep -c . <<<"$2" || true)"; printf '%s\n' "$2"; }
lines() { grep -nE "$1" $src || true; }
point "1 own enums" "$(lines '^ *(pub(\(crate\))? )?enum ')"
point "1 flags that a loop sets" "$(lines 'let mut [a-z_]+ = (true|false);')"
point "1 numbers of refusals" "$(lines 'number_of\(&|\.number\(\)|u8::from\(Refusal')"
point "1 numbers for nothing" "$(lines 'NO_FORM[^,}]*$|return 0;|=> 0,$|map_or\(0')"
point "2 functions and types of one name" "$(grep -ohE '^ *(pub(\(crate\))? )?(fn|struct|enum|trait) [A-Za-z_]+' $src | awk '{print $NF}' | grep -vxE 'fmt|main|vote' | sort | uniq -c | awk '$1 > 1 {print $1, $2}')"
point "3 loops" "$(lines '^ *(for|while|loop)\b')"
point "4 conversions and printing" "$(lines 'fn (number|number_of|outcome|of|from|try_from|fmt)\b')"
point "5 clauses in two contracts or more" "$(grep -ohE '(requires|ensures)[^{]*\{.*\}' $src | sed -E 's/^[a-z]+[^{]*//' | sort | uniq -c | sort -rn | awk '$1 > 1')"
point "5 parameters in two functions or more" "$(grep -ohE 'fn [a-z_]+(<[^(]*>)?\([^)]*\)' $src | sed -E 's/fn [a-z_]+(<[^(]*>)?//' | grep ',' | sort | uniq -c | sort -rn | awk '$1 > 1')"
point "6 arrays" "$(lines '\[[A-Za-z0-9_]+; *[A-Za-z0-9_]+\]')"
point "7 matches and closures" "$(lines 'match |\bFn(Mut|Once)?\(')"
printf '== 8 proof files of functions: %s, lines: %s\n' "$(find crates/*/proofs -mindepth 2 -name '*.antt' | wc -l)" "$(find crates/*/proofs -mindepth 2 -name '*.antt' -exec cat {} + | wc -l)"
printf '== 8 lemma files: %s, lines: %s\n' "$(ls crates/*/proofs/*.antt | wc -l)" "$(cat crates/*/proofs/*.antt | wc -l)"
