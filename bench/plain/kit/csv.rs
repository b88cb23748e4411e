use rattle_std::alloc::*;
use rattle_std::prelude::*;
pub struct ByteRecord(std::vec::Vec<std::vec::Vec<u8>>);
impl ByteRecord {
    pub fn new(_: Global) -> Self {
        ByteRecord(vec![])
    }
    pub fn from_fields<T: AsRef<[u8]>>(_: Global, f: &[T]) -> Result<Self, AllocError> {
        Ok(ByteRecord(f.iter().map(|x| x.as_ref().to_vec()).collect()))
    }
    pub fn push_field(&mut self, f: &[u8]) -> Result<(), AllocError> {
        self.0.push(f.to_vec());
        Ok(())
    }
}
pub struct Writer<W>(W);
impl Writer<Vec<u8>> {
    pub fn from_writer(w: Vec<u8>) -> Self {
        Writer(w)
    }
    pub fn write_byte_record(&mut self, r: &ByteRecord) -> Result<(), ()> {
        let t = r.0.join(&b',');
        self.0.0.extend_from_slice(&t);
        self.0.0.push(b'\n');
        Ok(())
    }
    pub fn into_inner(self) -> Result<Vec<u8>, ()> {
        Ok(self.0)
    }
}
