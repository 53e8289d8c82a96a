//! A single number lent to a call.

/// So many numbers stand on either side of the lent one.
const BESIDE: usize = 8;

/// What they hold.
const BESIDE_BYTE: u8 = 0xC3;

/// A number lent to a call, with others of its kind on both sides that no call may change.
pub struct LentNumber<T> {
    whole: [T; 2 * BESIDE + 1],
}

impl<T: Copy + PartialEq + From<u8>> LentNumber<T> {
    pub fn new(number: T) -> LentNumber<T> {
        let mut whole = [T::from(BESIDE_BYTE); 2 * BESIDE + 1];
        whole[BESIDE] = number;
        LentNumber { whole }
    }

    pub fn number(&self) -> T {
        self.whole[BESIDE]
    }

    pub fn lend(&mut self) -> &mut T {
        &mut self.whole[BESIDE]
    }

    pub fn beside_kept(&self) -> bool {
        self.whole.iter().enumerate().all(|(at, &number)| at == BESIDE || number == T::from(BESIDE_BYTE))
    }
}
