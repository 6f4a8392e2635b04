//! The repeater step (document 01, "Repeater step"), and the call for it (document 02, A7).

use crate::clerk::Answer;
use crate::subtelegram::{check, level, renew_hash, Refusal, OUT_OF_RANGE};

/// The highest setting.
const HIGHEST: u8 = 2;

/// What is sent for these bytes at this setting, if anything.
pub fn repeat(setting: u8, bytes: &[u8]) -> Option<Vec<u8>> {
    if check(bytes).is_err() {
        return None;
    }
    let repeated = match setting {
        1 => level(bytes) == 0,
        2 => level(bytes) == 0 || level(bytes) == 1,
        _ => false,
    };
    if !repeated {
        return None;
    }
    // The level is raised by one, and HASH changes; nothing else differs.
    let mut sent = bytes.to_vec();
    let status = sent.len() - 2;
    sent[status] += 1;
    renew_hash(&mut sent);
    Some(sent)
}

pub fn is_setting(setting: u8) -> bool {
    setting <= HIGHEST
}

/// "Refusals: the second call gives 10, then the check's"; else "what to send, if anything".
pub fn ask(setting: u8, bytes: &[u8]) -> Result<Option<Vec<u8>>, Refusal> {
    if !is_setting(setting) {
        return Err(OUT_OF_RANGE);
    }
    check(bytes)?;
    Ok(repeat(setting, bytes))
}

/// "Only KEPT is ever repeated": what the caller sends for a reception with this answer.
pub fn sent_for(setting: u8, answer: Answer, bytes: &[u8]) -> Vec<u8> {
    match answer {
        Answer::Kept => ask(setting, bytes).ok().flatten().unwrap_or_default(),
        _ => Vec::new(),
    }
}

#[cfg(test)]
mod tests {
    use super::*;
    use crate::random::Random;
    use crate::telegrams::{at_level, valid};

    #[test]
    fn ten_then_the_check() {
        let bytes = at_level(&valid(&mut Random::new(3)), 0);
        let mut damaged = bytes.clone();
        damaged[1] ^= 1;
        for setting in 0..=255 {
            let asked = ask(setting, &bytes);
            match setting {
                0 => assert_eq!(asked, Ok(None)),
                1 | 2 => assert_eq!(asked, Ok(Some(at_level(&bytes, 1)))),
                _ => assert_eq!(asked, Err(10)),
            }
            let wrong = if setting > 2 { Err(10) } else { Err(1) };
            assert_eq!(ask(setting, &[]), wrong);
            let check = if setting > 2 {
                10
            } else {
                check(&damaged).unwrap_err()
            };
            assert_eq!(ask(setting, &damaged), Err(check));
        }
        assert_eq!(ask(1, &at_level(&bytes, 1)), Ok(None));
        assert_eq!(ask(2, &at_level(&bytes, 2)), Ok(None));
    }

    #[test]
    fn kept_alone() {
        let bytes = at_level(&valid(&mut Random::new(3)), 0);
        assert_eq!(sent_for(1, Answer::Kept, &bytes), at_level(&bytes, 1));
        assert!(sent_for(3, Answer::Kept, &bytes).is_empty());
        assert!(sent_for(1, Answer::Copy, &bytes).is_empty());
        assert!(sent_for(1, Answer::Loose, &bytes).is_empty());
    }
}
