#!/usr/bin/env bash
# Counts the places that a design pass looks at, in the crates below a folder: places.sh [FOLDER [NAME]]. With NAME it prints the lines.
set -euo pipefail
cd "${1:-.}"
show=${2:-}

count() {
    local name=$1 pattern=$2
    local found
    found=$(grep -rnE --include='*.rt' --exclude='tests.rt' "$pattern" crates/*/src || true)
    if [ "$show" = "$name" ]; then
        echo "$found"
    elif [ -z "$show" ]; then
        echo "$name $(printf '%s' "$found" | grep -c '' || true)"
    fi
}

# 1: an Option or a Result taken apart by hand, a width as a number, a type that derives no equality
count 1-arms '^ *(Some\([a-z_]+\)|None|Ok\([a-z_()]+\)|Err\([a-z_]+\)) =>'
count 1-returns 'if let (Ok|Err|Some)|is_(err|none)\(\) \{|return (Err|None)|^ *(Some\([a-z]+\)|None)$'
count 1-widths '[( ]width: (u32|usize)'
count 1-derives '^#\[derive\(Clone, Copy\)\]$'
# 2: functions whose names differ in a number or a width, the functions of one form, a read beside a read
count 2-numbered 'fn [a-z_]+(_byte|_half|_[0-9]+)\(|fn (si|imm|offs)[0-9]+\('
count 2-names "fn [a-z]+\([a-z]+: [A-Za-z]+\) -> &'static str"
count 2-looks 'fn look\('
# 3: loops, places counted beside a loop, bytes put together or taken apart by arithmetic
count 3-loops '^ *(for|while|loop)\b'
count 3-counters '^ *[a-z]+ = (number|PhysAddr)'
count 3-bytes '[*/%] 0x1(00|_0000|00_0000)\b'
# 4: conversions and printing
count 4-as ' as (u8|u16|u32|u64|i64|usize)\b'
count 4-digits 'hex_digit\(|digit_of\('
count 4-prints 'print(ln)?!\(rt;'
# 5: parameters that travel together, facts that are asked
count 5-access 'at: PhysAddr(, width|,$)|at, width'
count 5-span 'base: PhysAddr(, length|,$)|base\.0 (length|result\.length)|self\.base, self\.length'
count 5-requires 'requires'
# 6: buffers, lists
count 6-buffers '\[[a-z0-9]+; [A-Za-z0-9_]+\]|Vec<|length: u(32|64|size)'
# 7: a match on which operation to do, closures, tables of functions
count 7-switches 'match (op|half) \{'
count 7-functions 'dyn |impl Fn|fn\('
# 8: proof files and their lines
if [ -z "$show" ]; then
    echo "8-files $(find crates -path '*/proofs/*' ! -path '*/out/*' -name '*.antt' ! -name Lib.antt | wc -l)"
    echo "8-answers $(find crates -path '*/proofs/*' ! -path '*/out/*' -name 'Answers.antt' | wc -l)"
    echo "8-lines $(find crates -path '*/proofs/*' ! -path '*/out/*' -name '*.antt' ! -name Lib.antt -exec cat {} + | wc -l)"
fi
