//! What many times say about two archives.

/// How the times of one archive compare with those of another.
pub struct Ratio {
    /// The least time over the other's least time.
    pub of_least: f64,
    /// The median of the ratios of each turn.
    pub median: f64,
    /// The lowest and the highest ratio of least times among the placements.
    pub lowest: f64,
    pub highest: f64,
}

/// The ratio of two lists of times, turn by turn.
pub fn ratio(times: &[f64], others: &[f64], placements: usize) -> Ratio {
    let by_placement = (0..placements).map(|first| {
        let turns = |list: &[f64]| least(list.iter().skip(first).step_by(placements));
        turns(times) / turns(others)
    });
    let (lowest, highest) = by_placement.fold((f64::MAX, f64::MIN), |(lowest, highest), ratio| {
        (lowest.min(ratio), highest.max(ratio))
    });
    Ratio {
        of_least: least(times) / least(others),
        median: median(times.iter().zip(others).map(|(a, b)| a / b).collect()),
        lowest,
        highest,
    }
}

/// The least of some times.
pub fn least<'a>(times: impl IntoIterator<Item = &'a f64>) -> f64 {
    times.into_iter().copied().fold(f64::MAX, f64::min)
}

fn median(mut ratios: Vec<f64>) -> f64 {
    ratios.sort_by(f64::total_cmp);
    ratios[ratios.len() / 2]
}
