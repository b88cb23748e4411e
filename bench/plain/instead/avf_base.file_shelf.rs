use crate::{Failed, Shelf};
use std::io::{Read, Seek, SeekFrom};
pub struct FileShelf;
impl FileShelf {
    pub fn new<R>(_r: R) -> Self {
        FileShelf
    }
}
impl Shelf for FileShelf {
    fn read_at(&mut self, name: &str, at: u64, buf: &mut [u8]) -> Result<usize, Failed> {
        let mut f = std::fs::File::open(name).map_err(|_| Failed)?;
        f.seek(SeekFrom::Start(at)).map_err(|_| Failed)?;
        f.read(buf).map_err(|_| Failed)
    }
}
