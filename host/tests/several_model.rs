//! The model of several desks: a bureau worked through, its refusals one after another, and small bureaus
//! against every choice of orders. Needs no archive.

#[path = "common/bureaus.rs"]
mod bureaus;
#[path = "common/kit.rs"]
mod kit;

use bureaus::{
    few_rows, least_kept, limits_around, refused_at, some_bureau, three_desks, three_desks_worked,
    THREE_CLOSINGS, THREE_LENGTHS,
};
use jelvaksna::books::{self, Rng, OPENINGS, REFUSED_OPENINGS};
use jelvaksna::refusal::{CUT, DISORDER, NARROW, OVERTIME, RANGE, TAIL};
use jelvaksna::several_model::{choose, overtime};
use jelvaksna::{word, Chosen, MAX_CLOSING, MAX_DESKS, MAX_LIMIT};
use kit::Counts;

#[test]
fn a_worked_bureau() {
    let lent = three_desks().concat();
    for (limits, want, orders) in three_desks_worked() {
        for limit in limits {
            let mut result = [77; 10];
            let told = choose(
                0,
                &lent,
                &THREE_LENGTHS,
                &THREE_CLOSINGS,
                limit,
                &mut result,
            );
            assert_eq!((told, &result[..8]), (want, &orders[..]), "limit {limit}");
            assert_eq!(result[8..], [77; 2]);
        }
    }
}

/// One refusal after another, the later ones behind the earlier.
#[test]
fn the_sequence_of_refusals() {
    let books = three_desks();
    let sound = books.concat();
    let told = |books: &[u32], lengths: &[u32], limit, len| {
        choose(
            0,
            books,
            lengths,
            &THREE_CLOSINGS,
            limit,
            &mut [0; 8][..len],
        )
    };

    // Lent amiss, before any book.
    let amiss = refused_at(0, RANGE, 0);
    for opening in REFUSED_OPENINGS {
        assert_eq!(choose(opening, &[], &[], &[], u32::MAX, &mut []), amiss);
        let told = choose(
            opening,
            &sound,
            &THREE_LENGTHS,
            &THREE_CLOSINGS,
            9,
            &mut [0; 8],
        );
        assert_eq!(told, amiss);
    }
    assert_eq!(choose(0, &[], &[], &[], 0, &mut []), amiss);
    for lengths in [
        &[11, 19, 10][..],
        &[11, 19, 12],
        &[11, 30],
        &[11, 19, 11, 0],
    ] {
        assert_eq!(told(&sound, lengths, 9, 8), amiss);
    }
    // As 32 bits these add up.
    assert_eq!(told(&sound, &[u32::MAX, 19, 23], 9, 8), amiss);
    assert_eq!(told(&sound, &THREE_LENGTHS, MAX_LIMIT + 1, 8), amiss);
    for closings in [
        &[490, 500][..],
        &[490, 500, 501, 0],
        &[490, MAX_CLOSING + 1, 501],
    ] {
        let told = choose(0, &sound, &THREE_LENGTHS, closings, 9, &mut [0; 8]);
        assert_eq!(told, amiss);
    }
    let nine = [&books[0][..]; MAX_DESKS + 1].concat();
    let told_nine = choose(0, &nine, &[11; 9], &[0; 9], MAX_LIMIT, &mut [0; 18]);
    assert_eq!(told_nine, amiss);

    // A book, the first that is refused, whatever the result.
    for len in [0, 8] {
        assert_eq!(told(&sound, &[10, 20, 11], 3, len), refused_at(1, CUT, 10));
        assert_eq!(told(&sound, &[0, 30, 11], 3, len), refused_at(1, CUT, 0));
        assert_eq!(told(&sound, &[11, 0, 30], 3, len), refused_at(2, CUT, 0));
        assert_eq!(told(&sound, &[11, 20, 10], 3, len), refused_at(2, TAIL, 19));
        // The first row of the third desk is due last, with more spare than the other.
        let mut odd = sound.clone();
        odd[35] = word(6, 1_000);
        let at_odds = refused_at(3, DISORDER, 6);
        assert_eq!(told(&odd, &THREE_LENGTHS, 3, len), at_odds);
    }
    // Then the result, and last the limit.
    for len in 0..8 {
        assert_eq!(
            told(&sound, &THREE_LENGTHS, 3, len),
            refused_at(0, NARROW, 0)
        );
    }
    assert_eq!(
        told(&sound, &THREE_LENGTHS, 3, 8),
        refused_at(0, OVERTIME, 0)
    );
}

/// Of small bureaus: the answer is the least of all choices of orders that keep the limit, some choice
/// keeps it exactly if it is not refused, and the sum is that of the plans.
#[test]
fn every_choice_of_orders() {
    let mut counts = Counts::default();
    for i in 0..2_000 * books::times() {
        let mut rng = Rng::for_case(books::seed(), "every choice, model", i);
        let (opening, rows) = (rng.pick(&OPENINGS), few_rows(&mut rng));
        let (_, bureau) = some_bureau(&mut rng, opening, &rows);
        let choices = bureau.every_choice();
        for limit in limits_around(choices.iter().map(|choice| choice.0)) {
            let least = least_kept(&choices, limit);
            let Some((
                Chosen {
                    late,
                    overtime: sum,
                },
                plans,
            )) = bureau.choose(limit)
            else {
                assert_eq!(least, None, "case {i}, limit {limit}");
                counts.add("refused 16");
                continue;
            };
            assert_eq!(least, Some(late), "case {i}, limit {limit}");
            let plans = bureau.days.iter().zip(plans);
            let pairs: Vec<_> = plans.map(|(day, plan)| day.list()[plan - 1]).collect();
            assert_eq!(pairs.iter().map(|pair| pair.late).max(), least);
            let each = bureau.closings.iter().zip(&pairs);
            let theirs: u64 = each
                .map(|(&closing, pair)| overtime(closing, pair.end))
                .sum();
            assert_eq!(u64::from(sum), theirs);
            assert!(sum <= limit);
            counts.add("chosen");
            let tells = least > least_kept(&choices, MAX_LIMIT);
            counts.add_if(tells, "chosen for the limit");
        }
    }
    println!("every choice, model: {:?}", counts.0);
    counts.at_least(1_000, "refused 16");
    counts.at_least(20_000, "chosen");
    counts.at_least(2_000, "chosen for the limit");
}
