# What bench/run and bench/before share: each sources it, with a folder $scratch of its own.

cargo build --quiet --release --offline --manifest-path tests/second/Cargo.toml
second=tests/second/target/release/second
kinds='sorted shuffled pyramids reversed one-address own-place layers long-names folded one-name no-contents accents
  accents-shuffled'

# The same instructions take up to a third longer by where in a line of 64 octets they lie, so our code is linked at four
# places of a line; the least of all counts.
places='0 16 32 48'

# link OBJECT CHECKOUT PROGRAM: the library's object and bench.c of its checkout, as PROGRAM-PLACE.
link() {
  for place in $places; do
    printf '.text\n.p2align 6\n.skip 64 + %s\n.section .note.GNU-stack,"",%%progbits\n' "$place" > "$scratch/place.s"
    cc -std=c99 -O2 -Wall -Wextra -I"$2/include" -o "$3-$place" "$2/bench/bench.c" "$scratch/place.s" "$1"
  done
}

# What a program says at each place, started anew: where its memory happens to lie is worth some hundredths.
at_places() {
  local program=$1
  shift
  for place in $places; do "$program-$place" "$@"; done
}

# The ratio of the first to the second, or to the sum of the others.
ratio() { awk -v a="$1" -v b="$2" -v c="${3:-0}" 'BEGIN { printf "%8.2f", a / (b + c) }'; }

difference() { awk -v a="$1" -v b="$2" 'BEGIN { print a - b }'; }

# The least of each column over some lines of numbers.
least() { awk '{ for (i = 1; i <= NF; i++) if (NR == 1 || $i < least[i]) least[i] = $i } END { for (i = 1; i <= NF; i++) printf "%s%s", least[i], i < NF ? " " : "\n" }'; }

# What a lookup takes beyond the check of its input, the first two to the last two; nothing where 10 refuses it.
scan_ratio() {
  if [[ $kind == no-contents || $kind == longest ]]; then
    printf '%8s' -
  else
    ratio "$(difference "$1" "$2")" "$(difference "$3" "$4")"
  fi
}
