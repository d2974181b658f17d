/// Numbers that are the same in each run: a linear congruential generator.
#[derive(Clone, Copy)]
pub struct Dice {
    pub state: u64,
}

impl Dice {
    /// A number below this one; 0 below 0.
    pub fn below(&mut self, end: usize) -> usize {
        self.state = self
            .state
            .wrapping_mul(6_364_136_223_846_793_005)
            .wrapping_add(1_442_695_040_888_963_407);
        ((self.state >> 33) as usize).checked_rem(end).unwrap_or(0)
    }

    /// Up to 8 letters.
    pub fn letters(&mut self) -> Vec<u8> {
        (0..self.below(9)).map(|_| b"etaoinsh"[self.below(8)]).collect()
    }

    /// Another one, whose numbers are others.
    pub fn other(&mut self) -> Dice {
        Dice {
            state: self.below(usize::MAX) as u64,
        }
    }
}
