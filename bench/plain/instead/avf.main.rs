use avf_base::{FileShelf, StdSink, counter};
use avf_tool::run_tool;
use rattle_std::alloc::Global;
use rattle_std::marker::Brand;
use rattle_std::rt::R;
use rattle_std::sync::ledger::Blank;
fn main() {
    let words = rattle_std::prelude::Vec(
        std::env::args()
            .skip(1)
            .map(|w| rattle_std::prelude::String(w))
            .collect::<std::vec::Vec<_>>(),
    );
    let mut steps = counter::<R, Brand>(&R, Blank);
    let mut applies = counter::<R, Brand>(&R, Blank);
    let mut out = StdSink::new(std::io::stdout());
    let mut err = StdSink::new(std::io::stderr());
    let mut shelf = FileShelf::new(R);
    let s = run_tool(
        Global,
        &words,
        &mut shelf,
        &mut out,
        &mut err,
        &mut steps,
        &mut applies,
    );
    std::process::exit(s as i32);
}
