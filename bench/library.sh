#!/usr/bin/env bash
# The list call on a million words by the parts of the library: the part chip_capi alone, libnt6861.a, libnt6861.so, and from Python. Processor seconds,
# the best of 25 rounds each.
set -euo pipefail
cd "$(dirname "$0")/.."
source scripts/library.sh
whole_library
work=$(mktemp -d)
trap 'rm -rf "$work"' EXIT
cat > "$work/bench.py" << 'END_OF_PYTHON'
import random, sys, time
from array import array
import nt6861
dice = random.Random(7)
pin, clock = nt6861.pin_word, nt6861.clock_word
kinds = [pin("HSYNCI", 0), pin("HSYNCI", 1)] * 6 + [clock("8us")] * 8 + [pin("SCL", 0), pin("SCL", 1)] * 2 + [pin("SDA", 0), pin("SDA", 1)]
kinds += [pin("VSYNCI", 0), pin("VSYNCI", 1), nt6861.read_word("IRQX"), nt6861.write_word("CLRFLG", 0x3F), nt6861.write_word("IIDAT", 0)]
words = array("I", nt6861.word("write MDCON 00").to_bytes(4, "little") + nt6861.word("write IISTS 00").to_bytes(4, "little"))
words.extend(dice.choice(kinds) for _ in range(10**6 - 2))
with open(sys.argv[1], "wb") as file:
    words.tofile(file)
answers = array("I", bytes(4 * len(words)))

def best(given):
    least = 1e9
    for _ in range(25):
        chip = nt6861.Chip()
        begin = time.process_time()
        chip.run(words, given)
        least = min(least, time.process_time() - begin)
    return least

print(f"{best(answers):.6f} {best(None):.6f}")
END_OF_PYTHON
read -r lent own < <(PYTHONPATH=bindings/python python3 -B "$work/bench.py" "$work/words")
cc -O2 -Iinclude -o "$work/part" bench/library.c target/staticlib/libchip_capi.a
cc -O2 -Iinclude -o "$work/static" bench/library.c target/lib/libnt6861.a
cc -O2 -Iinclude -o "$work/shared" bench/library.c target/lib/libnt6861.so
echo "C, the part chip_capi alone: $("$work/part" "$work/words" 25)"
echo "C, libnt6861.a: $("$work/static" "$work/words" 25)"
echo "C, libnt6861.so: $(LD_LIBRARY_PATH=target/lib "$work/shared" "$work/words" 25)"
echo "Python, answers lent: $lent"
echo "Python, answers in a new array: $own"
