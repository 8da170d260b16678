#!/usr/bin/env bash
# Counts, in the sources of a checkout, the lines at which the older forms of docs/DESIGN-PASS.md stand. Tests do not count.
# usage: bash tools/places.sh [CHECKOUT]
set -euo pipefail
cd "${1:-$(dirname "$0")/..}"

# count NAME PATTERN: how many lines of the sources have the pattern.
count() {
    found=$(grep -rnE --include='*.rt' -- "$2" crates/*/src | grep -vcE '/(view_)?tests\.rt:' || true)
    printf '%-4s %4d  %s\n' "$1" "$found" "$3"
}

count 1a 'rule: ?(usize|[0-9])' 'a number for a refusal'
count 1b '(^|[^:])Outcome::Refused\(|^ +Refused\(Error\)' 'a refusal as a case of an answer'
count 1c '^\s*(Ok|Some)\(\w+\) => (return )?(Ok|Some)\(|None => (None|Err|unreachable)|Err\(\w+\) => (Err|Ok|match)\b' 'an arm that passes an Option or a Result on'
count 1d 'let (Some|Ok)\(.*\) = .* else \{' 'a let with an else'
count 2a '^impl \w+ for (u|i)(8|16|32|64|size) ' 'an impl for a type of integers'
count 2b '^(pub(\(crate\))? )?const (MOST_PAGES|PAGES_A_LINE|ROOT|LOG_PAGE\w*)\b' 'a constant that may stand twice'
count 2c '^\s*(pub(\(crate\))? )?fn (count|lines|number|unsigned|decode|line_after|line_of|page_map|write_pages|write_marks|write_ranges|page_numbers|half_of|word_of|is_skipped|move_down|move_up)\b' 'a function with a twin'
count 3a '^\s*(for|while|loop)\b' 'a loop'
count 3b '^\s*for \w+ in .*\.\.' 'a loop over a range of numbers'
count 3c '(^|\s)\w+ \+= |(differing|number)\.saturating_add\(1\)' 'a counter by hand'
count 4a 'impl.* fmt::Debug for' 'Debug by hand'
count 4b 'impl.* fmt::Display for' 'Display by hand'
count 4c '^impl.* From<' 'From by hand'
count 4d '^impl Error for' 'an empty impl of Error'
count 4e '^const [A-Z]+: \[' 'a table of names, searched by hand'
count 5a 'shapes: &(mut )?Shapes' 'the names of a script, handed down'
count 5b 'map: &mut AtomicBitmap' 'a bitmap, handed down'
count 5c 'requires in_(view|memory)' 'that a view lies in a memory, asked again'
count 5d 'FromStart \(' 'that pages count from the first byte, asked again'
count 5e 'layout: Layout\b' 'the pages of a memory, handed down'
count 6a '\[0; [A-Z_]+\]' 'a buffer of a fixed size, with a length beside'
count 6b 'Vec<OpenClaim>' 'claims by name in a list'
count 7a 'match word \{' 'a word that says which call to make'
printf '%-4s %4d  %s\n' 8a "$(find crates/*/proofs -name '*.antt' | wc -l)" 'files of proofs'
printf '%-4s %4d  %s\n' 8b "$(find crates/*/proofs -name '*.antt' -exec cat {} + | wc -l)" 'lines of proofs'
