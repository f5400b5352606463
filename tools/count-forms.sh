# Prints how many lines of src/ show each older form. Run at the top of a checkout.
c() { echo "$1: $(grep -rnE "$2" --include=*.rt crates/*/src | grep -vE '^[^:]*:[0-9]*: *//' | wc -l)"; }
c 1a '^ *(pub )?[a-z_]+: bool,'
c 1b '\benum '
c 1c '(class|channel)[a-z_]*: (Option<)?u8|fn channel[a-z_]*\(.*u8'
c 1d '^ *match .*(::new\(|weigh_by|_of_item\(|_of_code\()'
c 1e 'None => None|Err\([a-z]+\) => Err'
c 3 'for [a-z_]+ in [^{]*\.\.|\bwhile\b|\bloop \{|^ *channel \+= 1;'
c 4a '\bas (u8|u32|u64|i32|i64|usize)\b'
c 4b 'fault:\?|fault\.number\(\)|fn default\(|fn bits_of|fn byte_of|fn channel_name|^ *"(not )?stable"|^ *"(accepted|refused)"|", tripped"'
c 5a '^ *requires'
c 6 '(count|len|next): usize'
c 7 '\bfn\(|\bdyn\b|Fn(Mut|Once)?\(|match .*step'
for w in InRange NotBelowZero NotTooHeavy 'most_limits' 'settings_in_range' 'last_weights [a-z.]* ≡ \[\]' '0 < q' 'can_sum' 'most_correction' 'HasPlaces'; do echo "5b $w: $(grep -rnE "(requires|ensures).*$w" --include=*.rt crates/*/src | wc -l)"; done
echo "8: answers files $(find crates/*/proofs -name Answers.antt | wc -l), invariants files $(find crates/*/proofs -name Invariants.antt | wc -l), lines of proofs $(cat $(find crates/*/proofs -name '*.antt') | wc -l), lines of specs $(cat $(find crates/*/specs -name '*.antt') | wc -l), lines of src $(cat $(find crates/*/src -name '*.rt') | wc -l)"
