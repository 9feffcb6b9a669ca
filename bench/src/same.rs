//! Before anything is timed: all contestants must answer every call of a world with the same code, the same figures and the same book afterwards, and
//! with the code that the call was made for; and the limits must be those that it was made for.

use second::block::CODE;
use second::calls::{self, Order};
use second::code::NONE;
use second::tables::Lent;
use second::units::{ACCOUNTS, BLOCK, TABLE};

use crate::books::Book;
use crate::contestants::{Contestant, Engine, Five, Reference, Second};
use crate::work::{Asked, Call, Case, Work};
use crate::worlds::World;

/// The answer that all give.
pub fn check_tables(tables: &Lent) -> (u8, usize) {
    let answer = Second::check_tables(tables);
    assert_eq!(Engine::check_tables(tables), answer, "the engine's table check");
    assert_eq!(Reference::check_tables(tables), answer, "the reference's table check");
    answer
}

/// The answer that all give.
pub fn report(book: &[i64], tables: &Lent, account: i64) -> (u8, Five) {
    let answer = Second::report(book, tables, account);
    assert_eq!(Engine::report(book, tables, account), answer, "the engine's report of account {account}");
    assert_eq!(Reference::report(book, tables, account), answer, "the reference's report of account {account}");
    answer
}

/// The code that all give, and the book that all leave.
pub fn order(book: &[i64], tables: &Lent, wanted: &Order) -> (u8, Book) {
    let answer = ordered::<Second>(book, tables, wanted);
    for (name, other) in
        [("engine", ordered::<Engine>(book, tables, wanted)), ("reference", ordered::<Reference>(book, tables, wanted))]
    {
        assert_eq!(other.0, answer.0, "the {name}'s code of an order");
        assert!(other.1 == answer.1, "the book after an order, the {name}'s and the second program's");
    }
    assert_eq!(answer.1 != book, answer.0 == 0, "a refused order changes nothing, an admitted one something");
    answer
}

fn ordered<C: Contestant>(book: &[i64], tables: &Lent, wanted: &Order) -> (u8, Book) {
    let mut after = book.to_vec();
    (C::order(&mut after, tables, wanted), after)
}

/// Stops the program where they differ.
pub fn check(world: &World) {
    let World { tables, books, cases } = world;
    let lent = &tables.lent();
    for case in cases {
        match &case.work {
            Work::Check => check_place(case, check_tables(lent)),
            Work::Report(list) => list.iter().for_each(|asked| check_report(case, books, lent, asked)),
            Work::Order(list) => list.iter().for_each(|(book, wanted)| check_order(case, &books[*book], lent, wanted)),
        }
    }
    if cases.iter().any(|case| case.call == Call::OrderAdmitted) {
        books.iter().for_each(|book| check_codes(lent, book));
        books.iter().for_each(|book| check_in_force(lent, book));
    }
}

fn check_place(case: &Case, answer: (u8, usize)) {
    let place = if case.code == 0 { 0 } else { case.count };
    assert_eq!(answer, (case.code, place), "code and place that the tables were made for");
}

fn check_report(case: &Case, books: &[Book], tables: &Lent, asked: &Asked) {
    let (code, _) = report(&books[asked.book], tables, asked.account);
    assert_eq!(code, case.code, "the code that the report was made for");
}

fn check_order(case: &Case, book: &[i64], tables: &Lent, wanted: &Order) {
    let (code, after) = order(book, tables, wanted);
    assert_eq!(code, case.code, "the code that the order was made for");
    let [before, after] = [book, &after].map(|book| report(book, tables, wanted.account).1[4]);
    let good = match case.call {
        Call::OrderAdmitted => before > 0 && after >= 0,
        Call::OrderRefused => before > 0,
        Call::TroubleRefused => before < 0,
        _ => before < after && after < 0,
    };
    assert!(good, "{}: limits of {before} and {after}, which the order was not made for", case.name);
}

/// Where an account shares its settlement code, its report is of the code: without the code its figures are others.
fn check_codes(tables: &Lent, book: &[i64]) {
    for account in 0..ACCOUNTS {
        let code = book[BLOCK * account + CODE];
        let on_code = (0..ACCOUNTS).filter(|other| book[BLOCK * other + CODE] == code).count();
        let mut alone = book.to_vec();
        alone[BLOCK * account + CODE] = NONE;
        let [with, without] = [book, &alone].map(|book| calls::report(book, tables, account as i64));
        assert_eq!(with != without, code != NONE && on_code > 1, "the code of account {account}");
    }
}

/// Without own rows, where there are any, every account's figures are others.
fn check_in_force(tables: &Lent, book: &[i64]) {
    let absent = [0; TABLE];
    let without = Lent { own: &absent, ..*tables };
    for account in 0..ACCOUNTS as i64 {
        let [with, without] = [tables, &without].map(|lent| calls::report(book, lent, account));
        assert_eq!(with != without, tables.own != absent, "own rows and the figures of account {account}");
    }
}
