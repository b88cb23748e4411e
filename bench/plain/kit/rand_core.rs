pub trait SeedableRng {
    fn seed_from_u64(s: u64) -> Self;
}
pub mod utils {
    pub trait NextWord<W> {
        fn next_word(&mut self) -> W;
    }
}
