#!/bin/bash
# count.sh [CHECKOUT]: the numbers of the design pass, points 1 to 8; one line each: point, what, number.
here=$(cd "$(dirname "$0")" && pwd)
cd "${1:-.}" || exit 1
S='crates/*/src/*.rt'
P='crates/*/proofs/*.antt'
say() { printf '%s\t%s\t%s\n' "$1" "$2" "$3"; }
lines() { git grep -hE -e "$1" -- "${2:-$S}" | wc -l; }      # lines that match
times() { git grep -hoE -e "$1" -- "${2:-$S}" | wc -l; }     # matches
last() { python3 "$here/$1" "${@:2}" | tail -1; }

say 1 'own enums' "$(lines '^(pub )?enum ')"
say 1 'enums of the shape of Option or Result, by their empty or refused variant' "$(lines '^ +(Refused\(u64\)|OutOfRange|Failed\(Failure\)|Several|None),$')"
say 1 'of these Refused(u64)' "$(lines '^ +Refused\(u64\),$')"
say 1 'lines that name Refused(..)' "$(lines '\bRefused\(')"
say 1 'arms that hand a refusal on, Refused(n) => ' "$(lines 'Refused\([a-z]+\) =>')"
say 1 'let .. else on an own enum' "$(lines 'let [A-Z][A-Za-z]+::[A-Z][A-Za-z]+(\(.*\))? = ')"
say 1 'bool fields of structs' "$(lines '^ +(pub )?[a-z_]+: bool,$')"
say 1 'results bool' "$(lines '-> bool( \{)?$')"
say 1 'local flags and flag parameters (fine)' "$(lines '\bfine: bool\)|let mut fine\b')"
say 1 'constants for refusals' "$(lines '^pub const [A-Z0-9_]+: u64' 'crates/rules/src/refusal.rt')"
say 1 'constants for kinds' "$(lines '^pub const [A-Z0-9_]+: u8' 'crates/rules/src/kind.rt')"
say 1 'uses of refusal constants' "$(times '\brefusal::[A-Z][A-Z0-9_]+')"
say 1 'uses of kind constants' "$(times '\bkind::[A-Z][A-Z0-9_]+')"
say 1 'kinds as bytes in signatures and variants' "$(times '\b(kind|to): u8|-> u8|\(u64, u8\)')"
say 1 'results u64, u32 or u8' "$(lines '-> u(64|32|8)( \{)?$')"
say 1 'parameters and fields for refusal numbers' "$(times '\b(number|missing|refusal): u64')"
say 1 'tests of a refusal number' "$(lines 'if (number|refused|head|corrected\.refusal) (==|!=) (0|refusal::)')"
say 1 'call.name ==' "$(lines 'call\.name ==')"
say 1 'comparisons with 0' "$(lines '(==|!=) 0( |\)|$)')"

say 2 'functions of the groups of twins, by name' "$(lines '^ *(pub )?(extern "C" )?fn (walk_to|walk_all|gather|read_points|walk_plain|walk_by_date|walk_bounded|book_all|book_bytes|settle_on|settle|sandegmur_settle|plant_at|measure_at|without_curve|with_curve|technology_of|variant_of|direction_of|execution_of|is_speed|is_irradiance|speed_of|irradiance_of|smaller|larger|capped|in_power_range|is_nominal_power|is_curve_power|is_energy|is_price|put_word|put_double_word|link_at|double_word|sum_of_bytes|sum_of_list|read_days|read_numbers|file|clear_last|undo|preview|sandegmur_preview|on_four|on_first|on_all|month_of|quarter_of_day_of|number|refusal_of|append_call|take_back_call|fresh_call|put_number|put_amount|put_measure|put_quarter|put_refusal|exact_of|exact_by_date|exact_bounded|check_links|new_allowed|offset_for|naming_in)\(')"
say 2 'functions of src' "$(lines '^ *(pub )?(extern "C" )?fn ')"
say 2 'pairs of bodies alike by 0.80' "$(last twins.py . 0.80)"
say 2 'pairs of bodies alike by 0.90' "$(last twins.py . 0.90)"

say 3 'while' "$(lines '^ *while\b')"
say 3 'loop' "$(lines '^ *loop\b')"
say 3 'for' "$(lines '^ *for\b')"
say 3 'counted by hand, += 1 or -= 1' "$(lines '[+-]= 1;$')"
say 3 'iterators and slice methods' "$(times '\.(iter|iter_mut|zip|enumerate|rev|all|any|fold|map|copy_from_slice|fill|chunks_exact|chunks|windows|to_le_bytes|into_iter|take|skip)\(')"

say 4 'derives' "$(lines '^#\[derive')"
say 4 'derives of more than Clone and Copy' "$(lines '^#\[derive.*(Eq|Ord|Default|Debug|Hash)')"
say 4 'order by hand: functions' "$(lines '^ *(pub )?fn (is_at_most|is_within|smaller|larger|is_below|capped|or_zero|at_most)\(')"
say 4 'order by hand: ranges of constants' "$(lines '^ *(pub )?fn (is_whole|in_power_range|is_nominal_power|is_curve_power|is_energy|is_price|in_count_range|is_summer|is_kind|plant_allowed|measure_allowed)\(')"
say 4 'copies by hand: loops' "$(lines '^ *(pub )?fn (put_bytes|clear)\(')"
say 4 'copies by hand: copied, then set' "$(lines 'let mut next = [a-z]+;$')"
say 4 'fields bound again, let x = s.x;' "$(git grep -hE 'let [a-z_0-9]+ = [a-z_.]+\.[a-z_0-9]+;$' -- "$S" | sed -E 's/.*let ([a-z_0-9]+) = [a-z_.]+\.([a-z_0-9]+);/\1 \2/' | awk '$1 == $2' | wc -l)"
say 4 'conversions by hand: functions' "$(lines '^ *(pub )?fn (wide|link_at|watt_of|unsigned|raised|lowered|speed_of|irradiance_of|put_word|put_double_word|bits_of|double_word|signed|magnitude|byte_at|technology_of|variant_of|direction_of|execution_of)\(')"
say 4 'casts, as' "$(times '\bas (u8|u16|u32|u64|usize|i32|i64)\b')"
say 4 'digits of 256 or bits by hand' "$(lines '% 256\)|<< (8|16|24)|4294967296|18446744073709551615|2147483648')"
say 4 'printing by hand: functions' "$(lines '^ *(pub )?fn (put_byte|width|put_digits|put_decimal|put_signed|put_number|put_amount|put_measure|put_quarter|put_refusal|put_refused|put_line)\(')"
say 4 'impls of From, TryFrom, Display, operators' "$(lines '^impl.* (From|TryFrom|Into|Display|PartialEq|Eq|PartialOrd|Ord|Add|Sub|Neg|Mul|AddAssign|Default)\b.* for ')"

say 5 'facts in requires of three or more functions' "$(last contracts.py facts .)"
say 5 'facts in ensures of three or more functions' "$(last contracts.py answers .)"
say 5 'groups of parameters of three or more functions' "$(last contracts.py groups .)"
say 5 'length .. ≡ 32' "$(times 'length [a-z]+\.(now|old) ≡ 32')"
say 5 '32 * used ≤ length archive' "$(times '32 \* used ≤ length')"
say 5 '32 * n + 32 ≤ length archive' "$(times '32 \* n \+ 32 ≤ length')"
say 5 'Lies archive.now place' "$(times '\bLies archive\.now place')"
say 5 'place + so many ≤ length' "$(times '\b(at|i) \+ [0-9]+ ≤ length')"
say 5 'impl blocks and traits' "$(lines '^(pub )?(impl|trait)\b')"

say 6 'functions that take a place in a buffer, at: usize or u64' "$(times '\bat: (usize|u64)')"
say 6 'results usize' "$(times '-> usize')"
say 6 'parts up to a length beside, [..n]' "$(times '\[\.\.[a-z_.]+\]')"
say 6 'parts from a place on, [n..]' "$(times '\[[a-z_]+\.\.\]')"
say 6 'records cut out by number, [32 * i..32 * i + 32]' "$(times '\[32 \* [a-z]+\.\.32 \* [a-z]+ \+ 32\]')"
say 6 'arrays of fixed length' "$(times '\[(false|0(u8|u32|u64|i64)); [0-9]+\]')"
say 6 'casts to usize' "$(times '\bas usize\b')"

say 7 'match' "$(times '\bmatch ')"
say 7 'arms that call a function of the arguments, X => f(..)' "$(lines '^ +[A-Z][A-Za-z]+::[A-Za-z]+(\([^)]*\))? => [a-z_:]+\(')"
say 7 'call.name ==' "$(lines 'call\.name ==')"
say 7 'impl Fn, dyn, fn(..)' "$(times '\bimpl Fn|\bdyn |: fn\(|[A-Z]: Fn')"

say 8 'answers' "$(lines '^pub .* : goal\.' "$P")"
say 8 'files of answers' "$(git grep -lE '^pub .* : goal\.' -- "$P" | wc -l)"
say 8 'files of invariants' "$(git ls-files 'crates/*/proofs/*/Invariants.antt' | wc -l)"
say 8 'files of lemmas' "$(git grep -LE ' : goal\.' -- "$P" | wc -l)"
say 8 'lines of proofs' "$(git ls-files "$P" | xargs cat | wc -l)"
say 8 'lines of proofs without rules' "$(git ls-files "$P" | grep -v '^crates/rules/' | xargs cat | wc -l)"
say 8 'long terms three times in a file' "$(last terms.py . 3)"
say 8 'long terms three times in a file of answers' "$(python3 "$here/terms.py" . 3 | grep -c '/Answers.antt ')"
for c in crates/*/; do
    c=$(basename "$c"); p="crates/$c/proofs/*.antt"
    [ -n "$(git ls-files "$p")" ] || continue
    say 8 "$c: answers, files of answers, of invariants, of lemmas, lines" "$(lines '^pub .* : goal\.' "$p") $(git grep -lE '^pub .* : goal\.' -- "$p" | wc -l) $(git ls-files "$p" | grep -c '/Invariants.antt$') $(git grep -LE ' : goal\.' -- "$p" | wc -l) $(git ls-files "$p" | xargs cat | wc -l)"
done
say 0 'lines of src' "$(git ls-files "$S" | xargs cat | wc -l)"
