#!/usr/bin/env bash
# Counts the places that docs/DESIGN-PASS.md speaks of, by text alone, in the src/ of every crate below a folder (this one without one).
# With -v it lists them. What a command finds is a place to look at, not a fault.
set -euo pipefail
list=
[ "${1:-}" = -v ] && { list=1; shift; }
cd "${1:-.}"
show() { # NAME PATTERN
    local found
    found=$(grep -rnE "$2" crates/*/src || true)
    printf '%-32s %s\n' "$1" "$(printf '%s' "$found" | grep -c . || true)"
    [ -z "$list" ] || printf '%s\n' "$found" | sed 's/^/    /'
}
show 'numbers: number functions' 'fn (number|numbered|flag|of|byte|refusal)\('
show 'numbers: numbers as errors' 'Result<[^;]*, (u8|u16|u32|usize|i32)>'
show 'numbers: number fields' '^    pub (kind|number|flag): (u8|i32),'
show 'numbers: enums' '^(pub(\(crate\))? )?enum '
show 'loops: counts' 'for [a-z_]+ in 0\.\.|\.enumerate\(\)|while |[+-]= 1;'
show 'written by hand: bare derives' 'derive\(Clone, Copy\)'
show 'written by hand: printing functions' "fn write_[a-z_]+<W|-> &'static str"
show 'written by hand: casts' ' as (u8|u16|u32|i32|i64|usize)\b'
show 'facts: facts in three contracts' 'requires (few_shapes|few_library_methods|few_instructions|own_shape|out_fits|method_exists|method_room|code_room|handler_room|fresh_out|catches_inside)'
show 'facts: views of sheets' 'ensures.*(sheet_of|methods_of)|requires.*(sheet_of|methods_of)'
show 'facts: private fields' '(ensures|requires)[^{]*\{.*\.(codes|arrows|left|places|first|second|stored)\b'
show 'facts: buffer and place' 'out: &mut \[u8\], at: usize'
show 'buffers: fixed arrays' '\[[A-Za-z0-9:_ ]+; [0-9]+\]'
show 'buffers: counts in structs' '^    (pub )?count: '
show 'steps: dyn and fn pointers' '\bdyn |: fn\('
echo "proofs: lines                    $(find crates/*/proofs -name '*.antt' -print0 | xargs -0 cat | wc -l)"
echo "proofs: files                    $(find crates/*/proofs -name '*.antt' | wc -l)"
