#!/usr/bin/env bash
# Counts the places of each point of docs/DESIGN-PASS.md in src/ at a commit (HEAD if none is given): a line for each
# pattern, then the lines that it finds if LINES=1.
set -euo pipefail
cd "$(dirname "$0")/.."
commit=${1:-HEAD}

count() {
    local point=$1 what=$2 pattern=$3
    local found
    found=$(git grep -hnP "$pattern" "$commit" -- 'crates/*/src/*.rt' | wc -l || true)
    printf '%s %4d  %s\n' "$point" "$found" "$what"
    if [ "${LINES:-0}" = 1 ]; then
        git grep -nP "$pattern" "$commit" -- 'crates/*/src/*.rt' | sed 's/^[^:]*:/      /' || true
    fi
}

count 1 'arms that only hand a value on, or make the error of a None' '(Some|Ok)\((\w+)\) => (Ok|Some)\(\2\)|^\s*(None => Err\(|Err\((\w+)\) => (Err|None|Ok\(None)|None => None)|^\s*_ => Err\(.*\),$'
count 1 'an Option made by an if' '\{ None \}|^\s*None$|(return|else \{) None'
count 1 'a number in place of a kind' 'fn (number|code|row|from_number)\b|\.(number|code)\(\)'
count 2 'twins: readers of content made in place' 'rest: (\w+\.)*content\.octets|rest: octets,'
count 2 'twins: a literal for each fault' '(Err\(|^ {4,})Fault \{$'
count 2 'twins: the same but for a place or a form' "(Readable|Writable)<'a, In(List|Entry)|pub struct In(List|Entry)|fn (read_)?(utc|general|rfc3339)(_text)?\(|fn (small|big)[01]|struct (MomentOrDash|OrDash)\b"
count 2 'twins: the same but for a test on an octet' 'fn (line_length|blanks|word_length)\('
count 2 'twins: writes over a part' 'fn (put|over)\('
count 2 'twins: errors that want of memory becomes' 'From<(AllocError|AllocFailed<T>|fmt::Error)>'
count 3 'loops that count' '^\s*for \w+ in [^{]*\.\.|enumerate\(\)|^\s*while |^\s*loop \{'
count 4 'conversions and comparisons by hand' 'fn (number|code|from_number|from_content|from_octets|same|untold|read_verb|reason_number|input_word|digit|octets_of|nibble)\('
count 4 'types with Clone and Copy alone' '^#\[derive\((Clone, Copy|Drop)\)\]$'
count 5 'a view of a reader, in a clause' 'left_of (self|reader)\.'
count 5 'a reading leaves two octets less' '\+ 2 ≤ length'
count 5 'parameters that travel together: memory and place' 'out: &mut \[u8\], at: usize|^\s*out: &mut \[u8\],$'
count 5 'parameters that travel together: the parts of an extension' 'identifier: (&\[u8\]|usize), critical: bool|^    identifier: &\[u8\],$'
count 5 'digits at a place of a text' 'TwoDigits text'
count 5 'the words or lines that are left' 'words_of words\.(old|new)\.rest|words self\.(old|new)\.rest|words \w+\.(old|new)\.rest'
count 5 'what a hasher holds' 'Holds (self|result)'
count 6 'buffers with a length beside' 'serial: \[u8; 20\],|buffer: \[u8; 64\],|\[0u8; 128\]|-> \[u8; 128\]'
count 7 'a switch on which step to run' '^\s*match (role|context|form|laid)\b|match \(tag, laid\)'
