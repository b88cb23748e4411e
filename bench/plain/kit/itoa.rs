pub struct Buffer(String);
impl Buffer {
    pub fn new() -> Self {
        Buffer(String::new())
    }
    pub fn format(&mut self, n: u32) -> &str {
        self.0 = n.to_string();
        &self.0
    }
}
