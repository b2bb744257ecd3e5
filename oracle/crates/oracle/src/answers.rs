//! `oracle answers`: tables of answers for the program `test_glass`, and `oracle tables`: many more
//! of them through it.

use std::io;
use std::path::Path;

use crate::against;
use crate::glass;
use crate::refreshes;
use crate::rng::Rng;

/// A count, what a row holds, and so many rows.
fn table(rng: &mut Rng, head: &str, count: u64, row: fn(&mut Rng) -> String) -> String {
    let mut text = format!("{count} rows: {head}\n");
    for _ in 0..count {
        text += &row(rng);
        text.push('\n');
    }
    text
}

/// So many rows of `level`, of `gray` and of refreshes by rule 1, and behind them of refreshes by
/// either rule, if they are asked for.
pub fn answers(seed: u64, levels: u64, greys: u64, refreshes: u64, ruled: Option<u64>) -> String {
    let rng = &mut Rng::new(seed);
    let mut text = table(rng, "level GREY SWING STATE", levels, glass::level_row)
        + &table(rng, "gray STATE SWING GREY", greys, glass::gray_row)
        + &table(rng, refreshes::HEAD, refreshes, refreshes::row);
    if let Some(count) = ruled {
        text += &table(rng, refreshes::RULED_HEAD, count, refreshes::ruled_row);
    }
    text
}

/// The tables of `test_glass`, in their order.
const TABLES: [&str; 5] = ["level", "gray", "refresh", "ruled", "wide"];
const WIDE_HEAD: &str = "wide TOP STATE SWING GREY";

/// The rows that `test_glass` has room for.
const MOST_ROWS: u64 = 4_000;

/// So many refreshes by either rule, and as many greys at tops, through the program `test_glass`;
/// whether all were equal. The first batch that differs is kept.
pub fn tables(program: &Path, count: u64, seed: u64) -> io::Result<bool> {
    let (mut done, mut batch) = (0, 0);
    while done < count {
        let rows = MOST_ROWS.min(count - done);
        let seed = seed.wrapping_add(batch);
        let text = answers(seed, 0, 0, 0, Some(rows))
            + &table(&mut Rng::new(seed), WIDE_HEAD, rows, glass::wide_row);
        let said = against::output(program, text.as_bytes())?;
        let counts = [0, 0, 0, rows, rows];
        let must = TABLES.iter().zip(counts);
        let must: String = must
            .map(|(name, rows)| format!("{name} {rows} equal 0 different\n"))
            .collect();
        if said != must.as_bytes() {
            against::keep(&[("stdin", text.as_bytes()), ("stdout", &said)])?;
            println!("the batch of seed {seed} differs: see difference/");
            return Ok(false);
        }
        (done, batch) = (done + rows, batch + 1);
    }
    println!("{done} refreshes and as many greys at tops equal, 0 different");
    Ok(true)
}
