//! The numbers of CR 6, "going on in the order named" from 30, and the faults of
//! a text.

/// Text over 1 MiB.
pub const TOO_LONG: u8 = 30;
/// Text that is not JSON.
pub const NOT_JSON: u8 = 31;
/// "An array or object opened deeper".
pub const DEEPER: u8 = 32;
/// "A key or column repeated in its object or header".
pub const REPEATED: u8 = 33;
/// "A value of the wrong kind".
pub const WRONG_KIND: u8 = 34;
/// "An id outside 1 to 2,147,483,647".
pub const OUTSIDE: u8 = 35;
/// "A table's own id repeated in it".
pub const OWN_ID_REPEATED: u8 = 36;
/// "A 4,097th edge or 257th thread in all".
pub const TOO_MANY: u8 = 37;
/// "A needed key or column missing".
pub const MISSING: u8 = 38;
/// "Per-thread counts that don't sum exactly to their INSTR_COUNT".
pub const NO_SUM: u8 = 39;

/// What is wrong with a text.
#[derive(Default)]
pub struct Faults {
    /// The first of those that have a place, with its number.
    first: Option<(usize, u8)>,
    pub missing: bool,
    pub no_sum: bool,
}

impl Faults {
    pub fn add(&mut self, place: usize, number: u8) {
        let fault = (place, number);
        self.first = Some(self.first.map_or(fault, |first| first.min(fault)));
    }

    /// The fault that is given, in a text that ends at `end`.
    pub fn given(&self, end: usize) -> Option<(usize, u8)> {
        let missing = self.missing.then_some((end, MISSING));
        let no_sum = self.no_sum.then_some((end, NO_SUM));
        self.first.or(missing).or(no_sum)
    }
}
