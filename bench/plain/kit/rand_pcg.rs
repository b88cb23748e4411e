const M: u64 = 6364136223846793005;
pub struct Lcg64Xsh32 {
    state: u64,
    increment: u64,
}
fn xsh(state: u64) -> u32 {
    let rot = (state >> 59) as u32;
    let x = (((state >> 18) ^ state) >> 27) as u32;
    x.rotate_right(rot)
}
impl rand_core::SeedableRng for Lcg64Xsh32 {
    fn seed_from_u64(mut state: u64) -> Self {
        let mut seed = [0u8; 16];
        for c in seed.chunks_mut(4) {
            state = state.wrapping_mul(M).wrapping_add(11634580027462260723);
            let x = xsh(state);
            c.copy_from_slice(&x.to_le_bytes());
        }
        let s = u64::from_le_bytes(seed[..8].try_into().unwrap());
        let i = u64::from_le_bytes(seed[8..].try_into().unwrap()) | 1;
        let mut p = Lcg64Xsh32 {
            state: s.wrapping_add(i),
            increment: i,
        };
        p.step();
        p
    }
}
impl Lcg64Xsh32 {
    fn step(&mut self) {
        self.state = self.state.wrapping_mul(M).wrapping_add(self.increment)
    }
}
impl rand_core::utils::NextWord<u32> for Lcg64Xsh32 {
    fn next_word(&mut self) -> u32 {
        let w = xsh(self.state);
        self.step();
        w
    }
}
