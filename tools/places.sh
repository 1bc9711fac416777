#!/bin/sh
# The places of docs/DESIGN-PASS.md, a line each: the pattern and how many lines of src/ match it.
S=$(find crates -path '*/src/*' -name '*.rt' -not -path '*/out/*')
count() { printf '%s\t%s\n' "$(cat $S | grep -cE -e "$1")" "$1"; }
for p in \
  '^(pub )?enum ' 'if let (Answer|Decoded)::' '(Answer|Tested|Measured|ArrayDecoded|Verdict|Count|Decoded|Found)::' \
  '-> (Answer|Decoded|Verdict|Tested|Measured|Found|Count|Shown|Sender|Number|Argument|Given|ArrayDecoded)\b' \
  '-> (Slot|Peak|Told|Ended|Next|Loaded|Kept|Captured|Ran|Stepped)\b' '^    pub [a-z_]+: bool,$' '(number|refusal): u8' \
  'fn [a-z_]*_(profile|table)(_[a-z]+)?\(' 'fn [a-z_]*(both|changed|_sent)\(' 'fn wide' 'fn repeats' 'fn level(\(|<)' 'fn butterfly' 'fn first_levels' 'fn levels_from' 'fn parity' \
  '^ *while ' '^ *for .* in .*\.\.' '^ *while [a-z]+ != ' '^ *[a-z] \+= (4|8|16);' '\.(iter|position|fold|zip|copy_from_slice|copy_within|fill|all|any|enumerate|starts_with|chunks|split_at_mut)\(' \
  'PartialEq' 'derive\(Clone, Copy\)' ' as ' 'io::' '^ +([a-z_0-9]+): \1,$' \
  'm: usize, r: usize' 'rounds: usize, leaves: usize' 'm ≤ 10' \
  'at: usize\) -> usize|    at: usize,' 'reader: Reader' 'Option<' 'Result<' '\?;' '<[A-Z][a-z]*: [A-Z]' '^(pub )?trait '; do count "$p"; done
