//! Random numbers (splitmix64), each case's from the seed and the case's number alone.

pub struct Random {
    state: u64,
}

impl Random {
    pub fn of_case(seed: u64, case: u64) -> Random {
        let mut random = Random { state: seed.wrapping_mul(0xd134_2543_de82_ef95) };
        random.state = random.draw() ^ case.wrapping_mul(0x9e6c_63d0_876a_68ee);
        random.draw();
        random
    }

    pub fn draw(&mut self) -> u64 {
        self.state = self.state.wrapping_add(0x9e37_79b9_7f4a_7c15);
        let mixed = (self.state ^ (self.state >> 30)).wrapping_mul(0xbf58_476d_1ce4_e5b9);
        let mixed = (mixed ^ (mixed >> 27)).wrapping_mul(0x94d0_49bb_1331_11eb);
        mixed ^ (mixed >> 31)
    }

    /// A number from 0 up to, and not including, the bound.
    pub fn below(&mut self, bound: usize) -> usize {
        ((u128::from(self.draw()) * bound as u128) >> 64) as usize
    }

    /// A number between both ends, which are inside.
    pub fn between(&mut self, least: i64, greatest: i64) -> i64 {
        let width = (i128::from(greatest) - i128::from(least) + 1) as u128;
        (i128::from(least) + ((u128::from(self.draw()) * width) >> 64) as i128) as i64
    }

    pub fn one_in(&mut self, bound: usize) -> bool {
        self.below(bound) == 0
    }

    pub fn pick<T: Copy>(&mut self, from: &[T]) -> T {
        from[self.below(from.len())]
    }

    pub fn shuffle<T>(&mut self, list: &mut [T]) {
        for last in (1..list.len()).rev() {
            list.swap(last, self.below(last + 1));
        }
    }

    pub fn bytes(&mut self, length: usize) -> Vec<u8> {
        let mut bytes = vec![0; length];
        for eight in bytes.chunks_mut(8) {
            eight.copy_from_slice(&self.draw().to_be_bytes()[..eight.len()]);
        }
        bytes
    }

    pub fn shorts(&mut self, length: usize) -> Vec<u16> {
        self.bytes(2 * length).chunks_exact(2).map(|two| u16::from_be_bytes([two[0], two[1]])).collect()
    }
}
