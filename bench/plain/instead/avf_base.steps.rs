use rattle_std::fs::Files;
use rattle_std::sync::ledger::*;
pub struct Steps<L: Ledger> {
    pub n: u64,
    p: std::marker::PhantomData<L>,
}
impl<L: Ledger> Steps<L> {
    pub fn tick(&mut self) {
        self.n += 1;
    }
}
pub fn counter<R: Files, L: Ledger>(_rt: &R, _b: Blank) -> Steps<L> {
    Steps {
        n: 0,
        p: std::marker::PhantomData,
    }
}
