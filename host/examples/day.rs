//! A day of two transcripts through the safe wrapper: its plans, with opening minutes and without, an
//! order, a verdict, a row; then first come, first due.
//!
//!     cargo run --offline --release --manifest-path host/Cargo.toml --example day

use jelvaksna::{linked, word, Refusal};

fn main() -> Result<(), Refusal> {
    // Free from minute 0, 60 pages an hour; row: number, release, pages, due.
    let mut book = vec![word(1, 0), word(2, 60)];
    book.extend([word(3, 901), word(4, 1), word(5, 1), word(6, 5)]);
    book.extend([word(3, 902), word(4, 0), word(5, 10), word(6, 12)]);
    book.push(word(7, 2));

    // As it is, and where each transcript takes 3 minutes to open.
    let mut order = [0; 2];
    for opening in [0, 3] {
        println!("{opening} opening minutes:");
        for (i, plan) in linked::plans(opening, &book)?.iter().enumerate() {
            linked::order_of_plan(opening, &book, i as u32 + 1, &mut order)?;
            let (end, late) = (plan.end, plan.late);
            println!("plan {}: end {end}, late {late}, rows {order:?}", i + 1);
        }
    }
    // More than 30 are refused.
    println!("31 opening minutes: {:?}", linked::plans(31, &book));

    let pair = linked::order_for_bound(0, &book, 5, &mut order)?;
    println!("at most 5 late: end {}, rows {order:?}", pair.end);
    let (pair, beaten_by) = linked::verdict(0, &book, &[2, 1])?;
    println!("posting 2 1: {pair:?}, beaten by {beaten_by:?}");
    let numbers: Vec<u32> = linked::row_words(&book, 2)?
        .iter()
        .map(|w| w & 0x1fff_ffff)
        .collect();
    println!("row 2: {numbers:?}");

    // The profile refuses rows of which the first to be released is due last.
    println!("first come: {:?}", linked::first_come::plans(0, &book));
    book[5] = word(6, 20);
    println!("due at 20: {:?}", linked::first_come::plans(0, &book)?);
    Ok(())
}
