#!/usr/bin/env python3
"""Writes crates/bloom/src/hash_counts.rt: answers of quinn-proto's own `optimal_k_num`, for a test to replay.

    python3 tools/hash_counts.py PATH/TO/bloom_token_log.rs

The function is cut out of the file that is named, built with rustc, and asked for every pair of some edge values and
for pairs from a fixed generator. Built a second time with 4 bits for each byte in place of 8, it is asked for the same pairs by
half the budget.
"""
import pathlib
import re
import subprocess
import sys
import tempfile
import textwrap

MAIN = """
use std::f64::consts::LN_2;
WHOLE
HALF
fn main() {
    let tell = |bytes: u32, hits: u32| {
        let (num_bytes, expected_hits) = (bytes as usize, hits as u64);
        println!("{bytes} {hits} {} {}", optimal_k_num(num_bytes, expected_hits), by_half(num_bytes, expected_hits));
    };
    let mut x: u64 = 1;
    let mut next = || {
        x = x.wrapping_mul(6364136223846793005).wrapping_add(1442695040888963407);
        (x >> 32) as u32
    };
    let edges = [0, 1, 2, 7, 8, 64, 65, 1000, 65536, 1_000_000, 10_485_760, 16_777_216, u32::MAX];
    for bytes in edges {
        for hits in edges {
            tell(bytes, hits);
        }
    }
    for i in 0..200 {
        let bytes = next() >> (i % 30);
        let hits = next() >> (i * 7 % 31);
        tell(bytes, hits);
    }
}
"""

source = pathlib.Path(sys.argv[1]).read_text()
whole = re.search(r"^fn optimal_k_num\(.*?^}", source, re.S | re.M).group(0)
half = whole.replace("fn optimal_k_num", "fn by_half").replace("saturating_mul(8)", "saturating_mul(4)")
assert "saturating_mul(4)" in half
with tempfile.TemporaryDirectory() as folder:
    main = pathlib.Path(folder, "main.rs")
    main.write_text(MAIN.replace("WHOLE", whole).replace("HALF", half))
    program = str(pathlib.Path(folder, "main"))
    subprocess.run(["rustc", "-O", "-o", program, str(main)], check=True)
    rows = [line.split() for line in subprocess.run([program], check=True, capture_output=True, text=True).stdout.splitlines()]

out = ["// Byte budget, expected hits, and what quinn-proto's `optimal_k_num` answers: written by tools/hash_counts.py."]
out.append(f"pub const HASH_COUNTS: [[u32; 3]; {len(rows)}] = [")
out += [f"    [{', '.join(row[:3])}]," for row in rows]
out += ["];", "", "// The same by half the budget, for the same pairs: 4 bits for each byte."]
out.append(f"pub const HASH_COUNTS_BY_HALF: [u32; {len(rows)}] = [")
out += textwrap.wrap(", ".join(row[3] for row in rows) + ",", 99, initial_indent="    ", subsequent_indent="    ")
out.append("];")
pathlib.Path(__file__).parent.parent.joinpath("crates/bloom/src/hash_counts.rt").write_text("\n".join(out) + "\n")
