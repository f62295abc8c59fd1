#!/bin/sh
# Counts the places in crates/*/src where the older language shows, and with -l lists them: docs/DESIGN-PASS.md has what
# the counts were and what became of the places. Run it at the repository's top.
src='crates/*/src'
find_places() { # label, then what prints the places
    label=$1
    shift
    found=$("$@" | grep -v '_tests/')
    count=$(printf '%s' "$found" | grep -c '')
    printf '%4d  %s\n' "$count" "$label"
    [ "$list" ] && [ "$count" -gt 0 ] && printf '%s\n' "$found" | sed 's/^/          /'
    return 0
}
lines() { grep -rnE --include=*.rt "$1" $src; }
# functions, types and constants whose name stands more than once outside of traits' impls
same_names() {
    grep -rnoE --include=*.rt '^(pub(\(crate\))? )?(const )?(fn|struct|enum|const) \w+' $src |
        awk '{ name = $NF; n[name]++; at[name] = at[name] "\n" $0 } END { for (k in n) if (n[k] > 1 && k != "main" && k != "new") print substr(at[k], 2) }'
}
[ "$1" = -l ] && list=1
echo '1. Option, Result, enums'
find_places 'a bare number as the error' lines 'Result<[^=]*, usize>'
find_places 'an enum with a variant for none' lines '^    (Neither|Unreadable|None|Missing|Unknown),$'
find_places 'a flag beside what it is about' lines '^    (pub(\(crate\))? )?(in_form|well_made): bool|^ +\w+_agrees: bool'
find_places 'a number for a kind' lines 'fn rank\(|Blank \{ cause: 1,|^    pub number: u8'
echo '2. twins'
find_places 'a name of a function, type or constant that stands twice' same_names
find_places 'a function that differs from its neighbour in a type or a size' lines '^(pub\(crate\) )?fn (is_wrong_\w+|signed_\w+|byte_in|number_in|number|seconds|indexes|types|first_wrong|first_past|cut_low|cut_high|leap_lengths|common_lengths|second_month|third_month|is_same_\w+)\('
find_places 'a function that only forwards to one of the same promise' lines '^ +(self\.first_wrong\(\)|scan_\w+\(\w+\)|judge\(file\)|compare\(first, second, question\)|truncate\(|date_of_day\(rule, day\)$|day_of_date\(rule, date\)$)'
find_places 'the same test before each question' lines '^        if (calendar|zone) >= count_of'
find_places 'the same choice before each question' lines '^        match place_in\('
find_places 'a method that a source of the other kind has alike' lines '^    fn (find|rule_of)\('
echo '3. loops'
find_places 'loops in all' lines '^ *(for|while|loop)\b'
find_places 'a loop that counts an index by hand' lines '^ +(at|count|start|low|high|k|i) ([+-]?= (1|middle|middle \+ 1));'
find_places 'a for over numbers that index by hand' lines '^ *for k in '
find_places 'a for that a method of the library says' lines '^ *for (\(i, \w+\) in \w+\.iter|slot in|length in &)'
echo '4. derives and conversions'
find_places 'equality by hand' lines 'fn (is_same\w*|is_nought)\('
find_places 'a conversion by as' lines ' as [iu](8|16|32|64|size)\b'
find_places 'a range test by hand' lines '(\w+) < \w+ \|\| (\w+ < \1|\1 >=? )|^ +-OFFSET_MOST <=|day >= 1 &&'
find_places 'a byte matched as a char' lines 'byte as char'
echo '5. facts and parameters that travel together'
find_places 'a buffer and a place in it' lines 'fn \w+.*\((out: &mut|file: &)\s*\[u8\], (at|block|header): usize'
find_places 'a block and its count' lines 'fn \w+\(block: &\[u8\], times: usize'
find_places 'a first offset and its changes' lines 'fn \w+\(first: i32, changes: &'
find_places 'what was said, and the state' lines 'fn \w+\(fields: Fields, '
find_places 'the members of one rule in a row' lines 'YearRule\.shape rule\.now\) \(R\.YearRule'
echo '6. buffers'
find_places 'an array with a length or a start beside it' lines '\(\[u8; \w+\], usize\)|bytes: \[u8; |lengths: \[u8; '
find_places 'a sorted list searched by hand' lines '^ *while low < high|^ *for c in (self\.)?changes'
echo '7. steps'
find_places 'a closure, an Fn or a dyn' lines '\|&?\w+(, &?\w+)?\| |\|\|$|(Fn|FnMut|FnOnce)\(|\bdyn '
echo '8. proofs'
printf '%4d  %s\n' "$(cat $(find crates -path '*/proofs/*' -name '*.antt' -not -path '*/out/*') | grep -c '')" 'lines of proofs' \
    "$(cat $(find crates -path '*/specs/*' -name '*.antt' -not -path '*/out/*') | grep -c '')" 'lines of definitions' \
    "$(cat $(find crates -name Answers.antt -not -path '*/out/*') | grep -cE '^pub .* : goal\.')" 'answers' \
    "$(cat crates/*/src/*.rt | grep -c '')" 'lines of sources'
