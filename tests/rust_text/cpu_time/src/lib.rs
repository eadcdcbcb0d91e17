//! A stand-in: time is not asked for here.
#[derive(Debug, Clone, Copy, Eq, PartialEq, Hash)]
pub struct ThreadTime;

impl ThreadTime {
    pub fn now() -> Self {
        ThreadTime
    }

    pub fn elapsed(&self) -> std::time::Duration {
        std::time::Duration::ZERO
    }
}
