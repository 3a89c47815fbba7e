//! A noisy radio path for the examples: converts hard bits to noisy soft bits. Every language's example draws the same numbers.

pub struct Air {
    state: u32,
}

impl Default for Air {
    fn default() -> Air {
        Air { state: 2463534242 }
    }
}

impl Air {
    /// A random number by xorshift (Marsaglia, 2003).
    pub fn random(&mut self) -> u32 {
        self.state ^= self.state << 13;
        self.state ^= self.state >> 17;
        self.state ^= self.state << 5;
        self.state
    }

    /// Sends a bit as 64 or -64 and adds nearly Gaussian noise, a sum of four numbers, with standard deviation `strength`.
    pub fn soft(&mut self, bit: u8, strength: i32) -> i8 {
        let noise = (0..4).map(|_| (self.random() >> 24) as i32).sum::<i32>() - 510;
        let sent = if bit == 0 { 64 } else { -64 };
        (sent + noise * strength / 148).clamp(-127, 127) as i8
    }

    pub fn soften(&mut self, bursts: &[[u8; 148]; 4], strength: i32) -> [[i8; 148]; 4] {
        bursts.map(|burst| burst.map(|bit| self.soft(bit, strength)))
    }
}
