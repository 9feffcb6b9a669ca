//! Document 01, the call "check tables": codes 2 and, by #103 of document 02, 13, each with its place. Every other call
//! that is lent tables asks for the same fault.

use super::{DONE, Refusal};
use crate::tables::{Lent, Tables};
#[cfg(test)]
use crate::units::{ROW, TABLE};

/// The call: its code, and the place of the fault with codes 2 and 13, else 0.
pub fn check_tables(lent: &Lent) -> (u8, usize) {
    match lent.tables().map(|tables| first_fault(&tables)) {
        None => (Refusal::WrongLength as u8, rule!(0; PlaceOfWrongLength => 1)),
        Some(Some(fault)) => fault.named(),
        Some(None) => (DONE, 0),
    }
}

/// Why tables are turned away, and where.
#[derive(Clone, Copy)]
pub struct Fault {
    pub refusal: Refusal,
    place: usize,
}

/// A broken number anywhere comes before a laxer one anywhere, whichever has the lower place.
pub fn first_fault(tables: &Tables) -> Option<Fault> {
    let broken = tables.first_broken().map(|place| Fault { refusal: Refusal::BrokenTable, place });
    let laxer = || {
        let refusal = rule!(Refusal::LaxerOwnRow; LaxerIs2 => Refusal::BrokenTable, LaxerIs7 => Refusal::NoSuchChoice);
        tables.first_laxer().map(|place| Fault { refusal, place })
    };
    rule!(broken.or_else(laxer);
        LaxerBeforeBroken => laxer().or(broken),
        LaxerBeforeBrokenGroup => [broken, laxer()].into_iter().flatten().min_by_key(|fault| fault.place / TABLE),
        LaxerBeforeBrokenRow => [broken, laxer()].into_iter().flatten().min_by_key(|fault| fault.place / ROW),
        LaxerBeforeBrokenNumber => [broken, laxer()].into_iter().flatten().min_by_key(|fault| fault.place))
}

impl Fault {
    /// Code and place as the answer has them; the place is counted over all three.
    fn named(self) -> (u8, usize) {
        rule!((); CheckPassesLaxer => if self.refusal == Refusal::LaxerOwnRow { return (DONE, 0) });
        let place = rule!(self.place;
            PlaceOffByOne => self.place + 1,
            PlaceWithinItsTable => self.place % TABLE,
            LaxerPlaceWithinItsTable => self.if_laxer(|place| place % TABLE),
            LaxerPlaceOfItsRow => self.if_laxer(|place| place / ROW * ROW),
            LaxerPlaceOfItsDate => self.if_laxer(start_of_date),
            LaxerHasNoPlace => self.if_laxer(|_| 0));
        (self.refusal as u8, place)
    }

    /// For mutants of the place of code 13.
    #[cfg(test)]
    fn if_laxer(self, wrong: impl Fn(usize) -> usize) -> usize {
        if self.refusal == Refusal::LaxerOwnRow { wrong(self.place) } else { self.place }
    }
}

/// For a mutant: the place of the date's first number.
#[cfg(test)]
fn start_of_date(place: usize) -> usize {
    crate::row::date_of(place % ROW).map_or(place, |(_, of_five)| place - of_five)
}
