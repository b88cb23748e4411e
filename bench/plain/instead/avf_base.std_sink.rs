use crate::{Failed, Sink};
use std::io::Write;
pub struct StdSink<W> {
    w: W,
}
impl<W: Write> StdSink<W> {
    pub fn new(w: W) -> Self {
        StdSink { w }
    }
}
impl<W: Write> Sink for StdSink<W> {
    fn write(&mut self, b: &[u8]) -> Result<usize, Failed> {
        self.w.write(b).map_err(|_| Failed)
    }
}
