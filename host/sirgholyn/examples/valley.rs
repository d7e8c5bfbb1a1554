//! Writes a valley's formula to standard output:
//! `cargo run --example valley -- TRAPS LURES PAIRS SEED [FREE-TRAP FREE-LURE]`, traps and lures from 1.
//! The files in `examples/` are those of `20 6 50 3`, `20 6 80 3` and `20 6 50 3 1 6`.

use model::generator::{text_of, Random};
use model::valleys::Valley;
use std::io::Write;

fn main() -> std::io::Result<()> {
    let words: Vec<usize> = std::env::args()
        .skip(1)
        .filter_map(|word| word.parse().ok())
        .collect();
    let [traps, lures, pairs, seed, free @ ..] = words.as_slice() else {
        eprintln!("wanted: TRAPS LURES PAIRS SEED [FREE-TRAP FREE-LURE]");
        std::process::exit(64);
    };
    let (traps, lures, pairs) = (*traps, *lures, *pairs);
    let mut valley = Valley::random(&mut Random::new(*seed as u64), traps, lures, pairs);
    if let [trap, lure] = free {
        valley.free = vec![(trap - 1, lure - 1)];
    }
    let comment =
        format!("c {traps} traps, {lures} lures, {pairs} pairs of traps in scent range\n");
    let mut out = std::io::stdout().lock();
    out.write_all(comment.as_bytes())?;
    out.write_all(&text_of(&valley.formula()))
}
