//! A morning at an open desk through the safe wrapper: opened with a book, planned, two rows
//! started, planned again; starts that are refused; at noon a change of pace that is refused, and one
//! that is not; and a desk where each row takes time to open.
//!
//!     cargo run --offline --release --manifest-path host/Cargo.toml --example morning

use jelvaksna::{linked::desk, word, Refusal, DESK_WORDS};

/// The plans of the rows left, each with its order.
fn print_plans(words: &[u32], left: usize) -> Result<(), Refusal> {
    let mut order = vec![0; left];
    for (i, plan) in desk::plans(words)?.iter().enumerate() {
        desk::order_of_plan(words, i as u32 + 1, &mut order)?;
        let (end, late) = (plan.end, plan.late);
        println!("plan {}: end {end}, late {late}, rows {order:?}", i + 1);
    }
    Ok(())
}

fn main() -> Result<(), Refusal> {
    // Free from minute 480, 60 pages an hour; row: number, release, pages, due.
    let mut book = vec![word(1, 480), word(2, 60)];
    book.extend([word(3, 901), word(4, 481), word(5, 1), word(6, 485)]);
    book.extend([word(3, 902), word(4, 480), word(5, 10), word(6, 492)]);
    book.extend([word(3, 903), word(4, 541), word(5, 1), word(6, 544)]);
    book.extend([word(3, 904), word(4, 540), word(5, 20), word(6, 562)]);
    book.push(word(7, 4));

    // Two desks: at the second one each transcript takes 2 minutes to open. From here on they carry
    // the rows.
    let (mut words, mut slow) = ([0; DESK_WORDS], [0; DESK_WORDS]);
    let opened = desk::open(0, &book, &mut words)?;
    desk::open(2, &book, &mut slow)?;
    drop(book);
    println!("opened: {} rows, minute {}", opened.rows, opened.minute);
    print_plans(&words, 4)?;

    // The second plan it is. Row 2 waits a minute longer than planned.
    for (row, minute) in [(1, 481), (2, 483)] {
        let moved = desk::start(&mut words, row, minute)?;
        println!(
            "row {row} started at {minute}: the desk is free at {}, worst lateness so far {}",
            moved.minute, moved.worst
        );
    }
    println!("the rest:");
    print_plans(&words, 2)?;

    // Refused, and the desk is as it was: no row 5, row 1 is done, row 3 is released at 541.
    for (row, minute) in [(5, 541), (1, 541), (3, 540)] {
        let before = words;
        if let Err(Refusal { number, place }) = desk::start(&mut words, row, minute) {
            println!("row {row} at {minute}: refused {number} at {place}");
        }
        assert_eq!(words, before);
    }

    // Noon. At 120 pages an hour row 4 would have more spare than row 3, which is due sooner: refused at
    // its number word in the book. A reader of 40 sits down, and rows 3 and 4 take 2 and 30 minutes.
    for pace in [120, 40] {
        let before = words;
        match desk::pace(&mut words, pace) {
            Ok(()) => println!("{pace} pages an hour:"),
            Err(Refusal { number, place }) => {
                println!("{pace} pages an hour: refused {number} at {place}");
                assert_eq!(words, before);
            }
        }
    }
    print_plans(&words, 2)?;
    let moved = desk::start(&mut words, 3, 541)?;
    println!("row 3 started at 541: the desk is free at {}", moved.minute);

    // The other desk keeps its opening minutes: a start moves it by 2 plus the length.
    println!("2 opening minutes:");
    print_plans(&slow, 4)?;
    let moved = desk::start(&mut slow, 1, 481)?;
    println!("row 1 started at 481: the desk is free at {}", moved.minute);
    Ok(())
}
