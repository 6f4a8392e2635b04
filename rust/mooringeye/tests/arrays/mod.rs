//! The arrays of a collector for tests.
use mooringeye::raw;

/// Arrays with this value in every number.
pub fn arrays(content: u8) -> raw::ArraysMut<'static> {
    let wide = u64::from(content);
    raw::ArraysMut {
        times: Box::leak(Box::new([wide; raw::CAPACITY])),
        lengths: Box::leak(Box::new([content; raw::CAPACITY])),
        bytes: Box::leak(Box::new([content; raw::ENTRY_BYTES])),
        copies: Box::leak(Box::new([u16::from(content); raw::CAPACITY])),
        numbers: Box::leak(Box::new([wide; raw::COLLECTOR_NUMBERS])),
    }
}
