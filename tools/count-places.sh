#!/bin/bash
# the counts of docs/DESIGN-PASS.md: run at the top of the repository
S="crates/*/src/*.rt"
n() { printf '%-4s %3d\n' "$1" "$(eval "$2" | wc -l)"; }
n 1a "grep -nE '\b(NONE|over: bool)\b|-> \((usize, u8|\[u8; 8\], usize)\)|^    rows\.len\(\)$' $S"
n 1b "grep -nE '^ +(None => None,|Some\([a-z_]+\) => (Some|Ok)\(|Err\([a-z_]+\) => Err\(|None => Err\()' $S"
n 1c "grep -nE 'fn [a-z_]+(_stands?|_renamed)\b.*-> u8$' $S"
n 1d "grep -nE 'fn (place_named|hang_sound)\b.*-> bool|Result<[a-z]+, u8>|, (number|turn|text): bool' $S"
n 1e "grep -nE '^ *(return )?(Err\()?Err\(Fault \{|^ +(None|Err\(refusal\)|Some\(place\)) => Err\(Fault \{|^ +Err\(Fault \{' $S"
n 2a "grep -nE 'fn (compare_words|compare_numbers|is_word|is_name|is_packed|is_number|magnitude|same|same_bytes|labels_known|rows_known|all_twice|free_twice|ports_twice|tally|tally_free|tally_ports|tally_one|strike_tables|hang_tables|show_tables)\b' $S"
n 2b "grep -nE 'pub enum KindName|const (PORT_LIMIT|DEPTH_LIMIT|SET_LIMIT)\b' $S"
n 3  "grep -nE 'while let \[|for [a-z]+ in [0-9a-z_]+\.\.|while [a-z_.()]+ [<>]|while left|while gcd' $S"
n 4  "grep -nE 'fn (compare_words|compare_numbers|same|same_form|same_bytes|is_known|is_lower|is_same|sign_of|layer_name|refused_line|add_decimal|write_digits|write_number|below_zero|above_zero)\b' $S"
n 5a "grep -nE 'requires (filed|mine|fit|within|ready|prepared) ' $S"
n 5b "grep -nE '(heap: Global|scribe: &mut Scribe|hand: &mut Hand|counts: &mut Rows|rows: &mut \[|atoms: &mut \[|standings: &\[|names: &Names)' $S"
n 6  "grep -nE '\[[a-zA-Z0-9_]+; ([A-Z_]+|[0-9]+)\]|while low < high' $S"
n 7  "grep -nE '\bdyn |impl Fn|Fn\(|: fn\(' $S"
n 8  "git ls-files 'crates/*/proofs/*' | grep '/Answers.antt'"
n 8b "git ls-files 'crates/*/proofs/*.antt' | grep -E 'proofs/[A-Za-z]+.antt' | grep -v Lib.antt"
