//! What a run has seen.

use crate::pairs::{Kind, Pair};
use crate::products;
use harness::counts::Table;
use second::compare::Side;
use std::cmp::Ordering;

/// How the products of a pair that is answered 0, 1 or 2 can lie.
const PRODUCTS: [&str; 6] = [
    "above 64 bits",
    "equal above 64 bits",
    "differ by one",
    "differ in high bits only",
    "differ in low bits only",
    "one of the two carries",
];

/// Forms of one side: a frequency, a set constant_tsc, and closed to backward.
const FORMS: [&str; 12] = [
    "00<", "00=", "00>", "01<", "01=", "01>", "10<", "10=", "10>", "11<", "11=", "11>",
];

pub struct Counts {
    pub answers: Table,
    products: Table,
    /// Forms of a, then of b.
    forms: Table,
}

/// What the pairs of a kind are answered.
fn answers(kind: Kind) -> &'static [usize] {
    match kind {
        Kind::Random => &[0, 2, 18],
        Kind::Top => &[0, 1, 2, 18],
        Kind::NoTicks | Kind::Halves => &[0, 1, 2],
        Kind::Equal => &[1],
        Kind::Measured | Kind::OneChanged | Kind::Neighbours => &[0, 2],
        Kind::HighOnly | Kind::LowOnly => &[0, 2],
        Kind::Small | Kind::Zeros | Kind::Edges | Kind::Refusals => &[0, 1, 2, 17, 18],
    }
}

fn form(side: &Side) -> usize {
    let calls = match side.closed.cmp(&side.backward) {
        Ordering::Less => 0,
        Ordering::Equal => 1,
        Ordering::Greater => 2,
    };
    let unit = usize::from(side.frequency != 0) * 2 + usize::from(side.constant_tsc != 0);
    unit * 3 + calls
}

fn lies(pair: &Pair) -> [bool; PRODUCTS.len()] {
    let (a, b) = (pair.a, pair.b);
    let left = products::product(a.ticks, b.frequency);
    let right = products::product(b.ticks, a.frequency);
    let above = products::high(left) > 0 || products::high(right) > 0;
    [
        above,
        above && left == right,
        left.abs_diff(right) == 1,
        products::high_only(left, right),
        products::low_only(left, right),
        products::carries(a.ticks, b.frequency) != products::carries(b.ticks, a.frequency),
    ]
}

impl Counts {
    pub fn new() -> Counts {
        let mut names = ["lower", "equal", "higher"].map(String::from).to_vec();
        names.extend((3..=18).map(|number| number.to_string()));
        let kinds = Kind::ALL.map(|kind| (format!("{kind:?}"), answers(kind)));
        Counts {
            answers: Table::new("answers by kind", &names, kinds),
            products: Table::counting("products", "pairs", PRODUCTS),
            forms: Table::grid("forms of a, and of b", &FORMS, FORMS),
        }
    }

    pub fn count(&mut self, kind: Kind, pair: &Pair, answer: u32) {
        self.answers.count(kind as usize, answer as usize);
        self.forms.count(form(&pair.a), form(&pair.b));
        if answer <= 2 {
            for (row, lies) in lies(pair).into_iter().enumerate() {
                self.products.add(row, 0, u64::from(lies));
            }
        }
    }

    pub fn tables(&self) -> [&Table; 3] {
        [&self.answers, &self.products, &self.forms]
    }
}
