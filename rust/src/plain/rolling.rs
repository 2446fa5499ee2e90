//! The rolling day mean, worked out afresh from the list of all hours so far.
use super::hours::{decoded, encoded, is_mean, rounded, LAST_FIRST_HOUR};
use crate::{Answer, ABSENT, ROLLING_STATE};

const DAY: usize = 24;
const ENOUGH_HOURS: usize = 18;
const HOUR_NUMBERS: u64 = 1 << 32;

/// A run of accepted hours, the oldest first: the number of each, and its mean. The last 24 give the same state and means as all.
#[derive(Clone, Debug, Default)]
pub struct Run {
    pub hours: Vec<(u32, i16)>,
}

impl Run {
    /// The hour that comes next, and 0 before the first.
    pub fn next(&self) -> u64 {
        self.hours.last().map_or(0, |&(last, _)| last as u64 + 1)
    }

    fn follows(&self, hour: u32) -> bool {
        if self.hours.is_empty() {
            hour <= LAST_FIRST_HOUR
        } else {
            hour as u64 == self.next()
        }
    }

    /// Takes one more hour, and answers the rolling mean.
    pub fn take(&mut self, hour: u32, mean: i16) -> Result<i16, u8> {
        if !is_mean(mean) {
            return Err(16);
        }
        if !self.follows(hour) {
            return Err(22);
        }
        self.hours.push((hour, mean));
        Ok(self.rolling_mean())
    }

    /// The means of the last 24 hours, or of all if there are fewer, the newest first.
    fn last_day(&self) -> Vec<i16> {
        self.hours.iter().rev().take(DAY).map(|&(_, mean)| mean).collect()
    }

    pub fn rolling_mean(&self) -> i16 {
        let present: Vec<i64> = self.last_day().into_iter().filter(|&mean| mean != ABSENT).map(i64::from).collect();
        if present.len() < ENOUGH_HOURS {
            ABSENT
        } else {
            rounded(present.iter().sum(), present.len() as i64) as i16
        }
    }

    /// The state that the run gives.
    pub fn state(&self) -> Vec<u8> {
        let mut means = self.last_day();
        means.resize(DAY, ABSENT);
        let mut bytes: Vec<u8> = means.into_iter().flat_map(|mean| encoded(mean).to_le_bytes()).collect();
        bytes.extend(self.next().to_le_bytes());
        bytes.resize(ROLLING_STATE, 0);
        bytes
    }
}

/// The hour that comes next in a state.
pub fn next(state: &[u8]) -> u64 {
    u64::from_le_bytes(state[2 * DAY..2 * DAY + 8].try_into().unwrap())
}

fn codes(state: &[u8]) -> Vec<u16> {
    state[..2 * DAY].chunks(2).map(|pair| u16::from_le_bytes([pair[0], pair[1]])).collect()
}

/// Whether some run gives these 64 bytes. It may have begun with absent hours at hour 0, so that only what would be before hour 0 is known.
pub fn is_state(bytes: &[u8]) -> bool {
    let (codes, next) = (codes(bytes), next(bytes));
    next <= HOUR_NUMBERS
        && codes.iter().all(|&code| decoded(code).is_some())
        && codes.iter().skip(next as usize).all(|&code| code == encoded(ABSENT))
        && bytes[2 * DAY + 8..].iter().all(|&byte| byte == 0)
}

/// The last 24 hours of a run that gives the state, or all from hour 0 on if they are fewer.
pub fn last_hours(state: &[u8]) -> Run {
    let before = (0..next(state)).rev().zip(codes(state));
    let mut hours: Vec<_> = before.map(|(number, code)| (number as u32, decoded(code).unwrap())).collect();
    hours.reverse();
    Run { hours }
}

pub fn rolling_fresh(state_out: &mut [u8]) -> Answer {
    if state_out.len() != ROLLING_STATE {
        return Err(8);
    }
    state_out.copy_from_slice(&Run::default().state());
    Ok(0)
}

pub fn rolling(state: &mut [u8], hour: u32, mean: i16, rolling_out: &mut [i16]) -> Answer {
    if state.len() != ROLLING_STATE || rolling_out.len() != 1 {
        return Err(8);
    }
    if !is_mean(mean) {
        return Err(16);
    }
    if !is_state(state) {
        return Err(22);
    }
    let mut run = last_hours(state);
    rolling_out[0] = run.take(hour, mean)?;
    state.copy_from_slice(&run.state());
    Ok(0)
}
