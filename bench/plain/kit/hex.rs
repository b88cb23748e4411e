use rattle_std::alloc::*;
use rattle_std::prelude::*;
pub fn encode(_: Global, b: &[u8]) -> Result<String, AllocError> {
    Ok(String(b.iter().map(|x| format!("{x:02x}")).collect()))
}
