//! How late can the desk open? Through the safe wrapper: by when the desk must be done and how late a transcript
//! may be at most; the latest free minute and the order from there, or that no minute allows it.
//!
//!     cargo run --offline --release --manifest-path host/Cargo.toml --example latest

use jelvaksna::{linked, word, Latest, Pair, Refusal};

fn main() -> Result<(), Refusal> {
    // Free from minute 480, 60 pages an hour; row: number, release, pages, due.
    let mut book = vec![word(1, 480), word(2, 60)];
    book.extend([word(3, 901), word(4, 481), word(5, 1), word(6, 485)]);
    book.extend([word(3, 902), word(4, 480), word(5, 10), word(6, 492)]);
    book.extend([word(3, 903), word(4, 541), word(5, 1), word(6, 544)]);
    book.extend([word(3, 904), word(4, 540), word(5, 20), word(6, 562)]);
    book.push(word(7, 4));

    // From its own free minute: done by 561 or 562.
    println!("{:?}", linked::plans(0, &book)?);

    // With no opening minutes, then with 2. The desk would stand idle before 540: where 48 minutes late is not
    // too much, rows 1 and 2 may wait up to 529. Nothing ends before 561.
    let mut order = [0; 4];
    for (opening, wanted_end, wanted_late) in [
        (0, 562, 0),
        (0, 561, 17),
        (0, 561, 16),
        (0, 561, 100),
        (0, 560, i32::MAX),
        (0, i32::MAX, i32::MAX),
        (2, 570, 30),
        (2, 562, 100),
    ] {
        print!("opening {opening}, done by {wanted_end}, at most {wanted_late} late: ");
        match linked::latest_free(opening, &book, wanted_end, wanted_late, &mut order) {
            Ok(Latest { minute, end, late }) => {
                println!("open by {minute}, end {end}, late {late}, rows {order:?}");
                // The order for the wanted lateness from this minute is the same.
                let from_there = [&[word(1, minute)], &book[1..]].concat();
                let mut other = [0; 4];
                let pair = linked::order_for_bound(opening, &from_there, wanted_late, &mut other)?;
                assert_eq!((pair, other), (Pair { end, late }, order));
            }
            Err(Refusal { number, place }) => println!("refused {number} at {place}"),
        }
    }

    // The book's own free minute is not used.
    book[0] = word(1, 10_000_000);
    let Latest { minute, .. } = linked::latest_free(0, &book, 561, 100, &mut order)?;
    println!("free at 10,000,000: open by {minute}, rows {order:?}");
    assert_eq!((minute, order), (529, [1, 2, 4, 3]));
    Ok(())
}
