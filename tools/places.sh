#!/bin/sh
# Prints the lines of src/ in which docs/DESIGN-PASS.md looks for places to rewrite: ./tools/places.sh [POINT]
cd "$(dirname "$0")/.." || exit 1
say() { echo "## $1"; }
find_in() { grep -rnE "$1" crates/*/src; }

one() {
    say "1 enums"
    find_in '^ *(pub )?enum '
    say "1 answers that are flags or numbers"
    find_in '\-> bool|\-> u8|\(bool, '
    say "1 a fault in an Option"
    find_in 'Option<Fault>'
    say "1 flags"
    find_in 'let mut [a-z_]+ = (true|false)|: &mut bool|queued: bool|: bool,'
    say "1 arms that only pass on a None, an Err or what is in an Ok or a Some"
    find_in 'None => (None|Err)|(Err|Ok|Some)\([a-z_]+\) => (Err|Ok|Some|None)\b|Err\(_\) => Err'
}
two() {
    say "2 functions of one name, or of one body but for a name"
    grep -rhoE '^ *(pub(\(crate\))? )?fn [a-z_]+' crates/*/src | sed -E 's/.*fn //' | sort | uniq -c | awk '$1 > 1'
    say "2 macros that write the same code twice"
    find_in 'macro_rules'
}
three() {
    say "3 loops"
    find_in '^ *(for|while|loop)\b'
}
four() {
    say "4 traits of std written by hand, and conversions by name"
    find_in 'impl.* (fmt::Display|PartialEq|PartialOrd|Ord|Eq|Clone|Copy|Default|From|TryFrom|FromStr)(<.*>)? for'
    find_in 'fn (from_|into_|to_|as_|text|cmp|eq|is_below|named_|number|small_number|flag|yielded|polled|lent|token_back|new\(\)|new_book)'
    say "4 zeros written out"
    find_in 'queued: false|head: 0,|name: None|runs: 0|accepted: 0|name: 1,'
}
five() {
    say "5 facts that clauses repeat, and parameters that travel together"
    for word in 'Sound(Wakes)?[ )]' 'line_of S' 'Queued records' 'start: usize' 'end: usize' 'set: &mut Orders' 'book: &mut Book' 'input: &mut Input' 'tally: &mut Tally'; do
        printf '%s: ' "$word"; find_in "$word" | wc -l
    done
}
six() {
    say "6 memory with a length or an index beside it"
    find_in "&'a mut \[|&'a mut \[|count: usize,|places: usize,|filled: usize,|waiting: usize,|head: usize,|next: usize,|NextFree\(usize\)"
    find_in 'waiting: Vec|post: Vec|^ +(ordered|growing|growing_ordered|merge|growing_merge): u64'
}
seven() {
    say "7 steps handed over as code"
    find_in '\$run|dyn |: fn\('
}
eight() {
    say "8 files that answer goals, and their lines"
    find crates/*/proofs -name Answers.antt -o -name Invariants.antt -path '*proofs*' | wc -l
    find crates/*/proofs -name '*.antt' | xargs cat | wc -l
}
case "${1:-all}" in
1) one ;; 2) two ;; 3) three ;; 4) four ;; 5) five ;; 6) six ;; 7) seven ;; 8) eight ;;
all) one; two; three; four; five; six; seven; eight ;;
esac
