pub trait ByteOrder {
    fn read_u16(b: &[u8]) -> u16;
    fn read_u32(b: &[u8]) -> u32;
    fn write_u16(b: &mut [u8], n: u16);
    fn write_u32(b: &mut [u8], n: u32);
}
pub struct LittleEndian;
impl ByteOrder for LittleEndian {
    fn read_u16(b: &[u8]) -> u16 {
        u16::from_le_bytes([b[0], b[1]])
    }
    fn read_u32(b: &[u8]) -> u32 {
        u32::from_le_bytes([b[0], b[1], b[2], b[3]])
    }
    fn write_u16(b: &mut [u8], n: u16) {
        b[..2].copy_from_slice(&n.to_le_bytes())
    }
    fn write_u32(b: &mut [u8], n: u32) {
        b[..4].copy_from_slice(&n.to_le_bytes())
    }
}
