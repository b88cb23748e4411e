#[derive(Clone)]
pub struct ArrayString<const N: usize>(String);
impl<const N: usize> ArrayString<N> {
    pub fn new() -> Self {
        ArrayString(String::new())
    }
    pub fn push_str(&mut self, s: &str) {
        self.0.push_str(s)
    }
    pub fn as_str(&self) -> &str {
        &self.0
    }
    pub fn as_bytes(&self) -> &[u8] {
        self.0.as_bytes()
    }
}

pub struct ArrayVec<T, const N: usize>(Vec<T>);
pub struct CapacityError;
impl<T: Copy, const N: usize> ArrayVec<T, N> {
    pub fn new() -> Self {
        ArrayVec(Vec::with_capacity(N))
    }
    pub fn try_extend_from_slice(&mut self, items: &[T]) -> Result<(), CapacityError> {
        if self.0.len() + items.len() > N {
            return Err(CapacityError);
        }
        self.0.extend_from_slice(items);
        Ok(())
    }
    pub fn as_slice(&self) -> &[T] {
        &self.0
    }
    pub fn clear(&mut self) {
        self.0.clear()
    }
}
