//! Starts for runs: numbers at which instructions change their ways, and random ones. They are the same at every call, so that an answer comes again.
use neon_terms::Registers;

const WIDTHS: [u32; 4] = [8, 16, 32, 64];

pub struct Starts {
    state: u64,
    made: usize,
    /// The registers that matter; the others are 0.
    registers: Vec<u8>,
}

impl Starts {
    pub fn new(registers: Vec<u8>) -> Self {
        Self { state: 0x6e65_6f6e, made: 0, registers }
    }

    /// SplitMix64.
    fn random(&mut self) -> u64 {
        self.state = self.state.wrapping_add(0x9e37_79b9_7f4a_7c15);
        let z = (self.state ^ self.state >> 30).wrapping_mul(0xbf58_476d_1ce4_e5b9);
        let z = (z ^ z >> 27).wrapping_mul(0x94d0_49bb_1331_11eb);
        z ^ z >> 31
    }

    /// A lane: near a bound or 0, around a power of two, an amount of a shift either way, or any number.
    fn lane(&mut self, bits: u32) -> u128 {
        let (any, top) = (self.random(), 1 << (bits - 1));
        let power = 1u64 << ((any >> 8) % u64::from(bits));
        let amount = (any >> 8) % (2 * u64::from(bits));
        let number = match any % 16 {
            0 => 0,
            1 => 1,
            2 => u64::MAX,
            3 => top,
            4 => top - 1,
            5 => top + 1,
            6 => power,
            7 => power - 1,
            8 => power.wrapping_neg(),
            9 => amount,
            10 => amount.wrapping_neg(),
            _ => self.random(),
        };
        u128::from(number & u64::MAX >> (64 - bits))
    }

    /// A register of lanes, each made by `lane`.
    fn lanes(bits: u32, mut lane: impl FnMut(u32) -> u128) -> u128 {
        (0..128 / bits).map(|k| lane(k * bits) << (k * bits)).sum()
    }

    /// A register: lanes all alike, each its own, any bits, or akin to one that the start has already, lane by lane.
    fn register(&mut self, bits: u32, earlier: u128) -> u128 {
        let mask = u128::MAX >> (128 - bits);
        match self.random() % 16 {
            0..=3 => {
                let lane = self.lane(bits);
                Self::lanes(bits, |_| lane)
            }
            4..=9 => Self::lanes(bits, |_| self.lane(bits)),
            10 | 11 => u128::from(self.random()) << 64 | u128::from(self.random()),
            12 => earlier,
            13 => !earlier,
            14 => Self::lanes(bits, |at| (earlier >> at & mask).wrapping_neg() & mask),
            _ => earlier ^ 1 << (self.random() % 128),
        }
    }
}

impl Iterator for Starts {
    type Item = Registers;

    /// The first has 0 everywhere.
    fn next(&mut self) -> Option<Registers> {
        let mut start = Registers::default();
        let bits = WIDTHS[self.made % WIDTHS.len()];
        for k in 0..if self.made == 0 { 0 } else { self.registers.len() } {
            let earlier = self.random() as usize % (k + 1);
            let earlier = start.0[usize::from(self.registers[earlier])];
            start.0[usize::from(self.registers[k])] = self.register(bits, earlier);
        }
        self.made += 1;
        Some(start)
    }
}

#[cfg(test)]
mod tests {
    use super::*;

    #[test]
    fn the_same_each_time_and_only_where_it_matters() {
        let starts: Vec<Registers> = Starts::new(vec![1, 5]).take(1000).collect();
        assert!(starts.iter().eq(Starts::new(vec![1, 5]).take(1000).collect::<Vec<_>>().iter()));
        assert!(starts.iter().all(|start| (0..32).all(|r| r == 1 || r == 5 || start.0[r] == 0)));
        assert_eq!(starts[0], Registers::default());
    }

    #[test]
    fn bounds_meet_in_one_lane() {
        for bits in WIDTHS {
            let least = 1 << (bits - 1);
            let lane = |value: u128| value & u128::MAX >> (128 - bits);
            assert!(Starts::new(vec![1, 2]).take(5000).any(|start| lane(start.0[1]) == least && lane(start.0[2]) == least), "{bits}");
        }
    }
}
