//! A small deterministic source of numbers (splitmix64), so that a seed names a book.

pub struct Chance {
    state: u64,
}

impl Chance {
    pub fn new(seed: u64) -> Chance {
        Chance { state: seed }
    }

    pub fn draw(&mut self) -> u64 {
        self.state = self.state.wrapping_add(0x9E37_79B9_7F4A_7C15);
        let mut mixed = self.state;
        mixed = (mixed ^ (mixed >> 30)).wrapping_mul(0xBF58_476D_1CE4_E5B9);
        mixed = (mixed ^ (mixed >> 27)).wrapping_mul(0x94D0_49BB_1331_11EB);
        mixed ^ (mixed >> 31)
    }

    /// Any of lowest to highest, both included.
    pub fn between(&mut self, lowest: i128, highest: i128) -> i128 {
        lowest + i128::from(self.draw()) % (highest - lowest + 1)
    }

    /// A place in a list of this length.
    pub fn place(&mut self, length: usize) -> usize {
        self.between(0, length as i128 - 1) as usize
    }

    pub fn pick<T: Copy>(&mut self, choices: &[T]) -> T {
        choices[self.place(choices.len())]
    }

    pub fn one_in(&mut self, often: i128) -> bool {
        self.between(1, often) == 1
    }

    /// Spread over the sizes of numbers from 0 to highest, small ones too.
    pub fn any_size(&mut self, highest: i128) -> i128 {
        let bits = 128 - highest.leading_zeros() as i128;
        let width = self.between(0, bits);
        self.between(0, highest.min((1 << width) - 1))
    }
}
