//! Round values and times for the lines of a picture.

const SECOND: u64 = 1_000_000_000;
const MINUTE: u64 = 60 * SECOND;
const HOUR: u64 = 60 * MINUTE;
const DAY: u64 = 24 * HOUR;

/// Steps of time from a second on: units, and how many of each.
const STEPS: [(u64, &[u64]); 4] = [
    (SECOND, &[1, 2, 5, 10, 15, 30]),
    (MINUTE, &[1, 2, 5, 10, 15, 30]),
    (HOUR, &[1, 2, 3, 6, 12]),
    (DAY, &[1, 2, 7, 14, 30, 90, 180, 365, 1825, 3650, 18_250]),
];

/// Values with few digits from `low` to `high`, at most seven; the ends where there are none.
pub fn values(low: f64, high: f64) -> Vec<f64> {
    let round = round_values(low, high).unwrap_or_default();
    if low == high {
        vec![low]
    } else if round.is_empty() {
        vec![low, high]
    } else {
        round
    }
}

/// Multiples of 1, 2 or 5 times a power of ten, each read from its decimal text, so that it is written as short.
fn round_values(low: f64, high: f64) -> Option<Vec<f64>> {
    let span = high - low;
    if !span.is_finite() || span <= low.abs().max(high.abs()) * 1e-9 {
        return None;
    }
    let least = (span / 6.0).log10().floor() as i32;
    let steps = [(1, least), (2, least), (5, least), (1, least + 1)];
    let size = |(times, power): &(i64, i32)| *times as f64 * 10f64.powi(*power);
    let step = steps.iter().find(|step| span / size(step) <= 6.0)?;
    let (first, last) = ((low / size(step)).floor() as i64, (high / size(step)).ceil() as i64);
    let all = (first..=last).filter_map(|i| format!("{}e{}", i * step.0, step.1).parse().ok());
    Some(all.filter(|v| (low..=high).contains(v)).collect())
}

/// Times with a round number of seconds, minutes, hours or days since 1970 from `first` to `last`, at most four; the ends where
/// there are none.
pub fn times(first: u64, last: u64) -> Vec<u64> {
    let below = (0..9).flat_map(|power| [1, 2, 5].map(|times| times * 10u64.pow(power)));
    let above = STEPS.iter().flat_map(|(unit, times)| times.iter().map(move |times| times * unit));
    // a time with decimals is longer, and has room for fewer
    let most = |step: u64| if step < SECOND { 2 } else { 4 };
    let step = below.chain(above).find(|step| (last - first) / step < most(*step));
    let begin = step.and_then(|step| first.checked_next_multiple_of(step)).filter(|begin| *begin <= last);
    match (step, begin) {
        _ if first == last => vec![first],
        (Some(step), Some(begin)) => (begin..=last).step_by(step as usize).collect(),
        _ => vec![first, last],
    }
}

#[cfg(test)]
mod tests {
    use super::*;

    #[test]
    fn round_numbers() {
        assert_eq!(values(-1.5, 4.0), [-1.0, 0.0, 1.0, 2.0, 3.0, 4.0]);
        assert_eq!(values(451.77, 879.22), [500.0, 600.0, 700.0, 800.0]);
        assert_eq!(values(0.0, 1.0), [0.0, 0.2, 0.4, 0.6, 0.8, 1.0]);
        assert_eq!(values(1e-9, 7e-9), [1e-9, 2e-9, 3e-9, 4e-9, 5e-9, 6e-9, 7e-9]);
        assert_eq!(values(5.5, 5.5), [5.5]);
        // no room for round ones: the ends
        for (low, high) in [(1e15, 1e15 + 0.125), (-1.7e308, 1.7e308), (0.0, 5e-324)] {
            assert_eq!(values(low, high), [low, high]);
        }
        for k in 1..2000 {
            let (low, high) = (-1.0 / f64::from(k), f64::from(k * k));
            let all = values(low, high);
            assert!((2..=7).contains(&all.len()) && all.iter().all(|v| (low..=high).contains(v)), "{all:?}");
        }
    }

    #[test]
    fn round_times() {
        let day = 20_000 * DAY;
        assert_eq!(times(day + 1, day + 2 * HOUR), [30, 60, 90, 120].map(|minutes| day + minutes * MINUTE));
        assert_eq!(times(day, day + DAY - MINUTE), [0, 6, 12, 18].map(|hours| day + hours * HOUR));
        assert_eq!(times(10 * SECOND, 19 * SECOND), [10 * SECOND, 15 * SECOND]);
        assert_eq!(times(7, 7), [7]);
        assert_eq!(times(u64::MAX - 1, u64::MAX), [u64::MAX - 1, u64::MAX]);
        for k in 1..60 {
            for first in [1, day + 7, u64::MAX / 3] {
                let last = first + (1 << k);
                let all = times(first, last);
                assert!((1..=4).contains(&all.len()) && all.iter().all(|t| (first..=last).contains(t)), "{all:?}");
            }
        }
    }
}
