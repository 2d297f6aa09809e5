//! A bureau of three desks under one overtime limit through the safe wrapper: what is chosen for ever
//! smaller limits, down to one that no orders keep; then refusals with the desk that they concern.
//!
//!     cargo run --offline --release --manifest-path host/Cargo.toml --example bureau

use jelvaksna::linked::{self, several};
use jelvaksna::{word, Refusal, RefusalAtDesk};

fn print_refusal(RefusalAtDesk { refusal, desk }: RefusalAtDesk) {
    let Refusal { number, place } = refusal;
    println!("refused {number} at {place}, desk {desk}");
}

fn main() -> Result<(), Refusal> {
    // Free from minute 480, 60 pages an hour; row: number, release, pages, due.
    let mut first = vec![word(1, 480), word(2, 60)];
    first.extend([word(3, 901), word(4, 481), word(5, 1), word(6, 485)]);
    first.extend([word(3, 902), word(4, 480), word(5, 10), word(6, 492)]);
    first.push(word(7, 2));
    let mut second = vec![word(1, 480), word(2, 60)];
    second.extend([word(3, 903), word(4, 481), word(5, 1), word(6, 486)]);
    second.extend([word(3, 904), word(4, 484), word(5, 1), word(6, 489)]);
    second.extend([word(3, 905), word(4, 488), word(5, 1), word(6, 493)]);
    second.extend([word(3, 906), word(4, 480), word(5, 20), word(6, 504)]);
    second.push(word(7, 4));
    // 30 pages an hour, and a class for each row in place of its due: an hour to spare.
    let mut third = vec![word(1, 480), word(2, 30)];
    third.extend([word(3, 907), word(4, 483), word(5, 2), word(0, 0)]);
    third.extend([word(3, 908), word(4, 480), word(5, 8), word(0, 0)]);
    third.push(word(7, 2));

    // Lent end to end, with the length of each, and when each desk closes.
    let books = [first, second, third];
    let lengths = [11, 19, 11];
    let closings = [490, 500, 501];
    let lent = books.concat();
    for (desk, book) in (1..).zip(&books) {
        println!("desk {desk}: {:?}", linked::plans(0, book)?);
    }

    let mut result = [0; 8];
    for limit in [200, 10, 9, 4, 3] {
        print!("overtime limit {limit}: ");
        match several::choose(0, &lent, &lengths, &closings, limit, &mut result) {
            Ok(chosen) => {
                println!("{} late, overtime {}", chosen.late, chosen.overtime);
                let mut rest = &result[..];
                for (desk, book) in (1..).zip(&books) {
                    // A row takes four words of its book, and one of the result.
                    let (order, after) = rest.split_at((book.len() - 3) / 4);
                    let (pair, _) = linked::verdict(0, book, order)?;
                    let over = pair.end.saturating_sub(closings[desk - 1]);
                    let (end, late) = (pair.end, pair.late);
                    println!("desk {desk}: end {end}, {over} over, late {late}, rows {order:?}");
                    rest = after;
                }
            }
            Err(refused) => print_refusal(refused),
        }
    }

    // Each transcript takes 2 minutes to open, at every desk.
    print!("2 opening minutes, limit 40: ");
    match several::choose(2, &lent, &lengths, &closings, 40, &mut result) {
        Ok(chosen) => println!("{} late, overtime {}", chosen.late, chosen.overtime),
        Err(refused) => print_refusal(refused),
    }

    // The second book a word too short: its desk is told, and the place in its own book.
    let cut = [&books[0][..], &books[1][..18], &books[2]].concat();
    // Lengths that do not add up concern no single book; nor does a result that is too short.
    for (books, lengths, len) in [
        (&cut, [11, 18, 11], 8),
        (&lent, [11, 18, 11], 8),
        (&lent, lengths, 7),
    ] {
        let told = several::choose(0, books, &lengths, &closings, 9, &mut result[..len]);
        if let Err(refused) = told {
            print_refusal(refused);
        }
    }
    Ok(())
}
