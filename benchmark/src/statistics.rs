//! Medians, spread, and how a cost grows.

/// What is kept of the costs of some runs.
#[derive(Clone, Copy, Debug, PartialEq)]
pub struct Sample {
    pub least: f64,
    pub lower_quartile: f64,
    pub median: f64,
    pub upper_quartile: f64,
    pub most: f64,
    pub runs: usize,
}

impl Sample {
    /// Of at least one run.
    pub fn of(mut costs: Vec<f64>) -> Sample {
        costs.sort_by(f64::total_cmp);
        Sample {
            least: costs[0],
            lower_quartile: quantile(&costs, 0.25),
            median: quantile(&costs, 0.5),
            upper_quartile: quantile(&costs, 0.75),
            most: costs[costs.len() - 1],
            runs: costs.len(),
        }
    }

    /// Half the distance between the quartiles, as a part of the median.
    pub fn spread(&self) -> f64 {
        0.5 * (self.upper_quartile - self.lower_quartile) / self.median
    }
}

/// The value below which that part of the sorted costs lies, between two of them if
/// it falls there.
fn quantile(sorted: &[f64], part: f64) -> f64 {
    let place = part * (sorted.len() - 1) as f64;
    let [below, above] = [
        sorted[place.floor() as usize],
        sorted[place.ceil() as usize],
    ];
    below + place.fract() * (above - below)
}

/// The middle one, or the mean of the two in the middle.
pub fn median(costs: impl Iterator<Item = f64>) -> f64 {
    Sample::of(costs.collect()).median
}

/// The exponent k of the power law `cost = c * size^k` that fits best: the slope of
/// the line through the logarithms, by least squares.
pub fn exponent(points: &[(f64, f64)]) -> f64 {
    let logarithms = || points.iter().map(|(size, cost)| (size.ln(), cost.ln()));
    let count = points.len() as f64;
    let mean_x = logarithms().map(|(x, _)| x).sum::<f64>() / count;
    let mean_y = logarithms().map(|(_, y)| y).sum::<f64>() / count;
    let together = logarithms()
        .map(|(x, y)| (x - mean_x) * (y - mean_y))
        .sum::<f64>();
    let along = logarithms()
        .map(|(x, _)| (x - mean_x) * (x - mean_x))
        .sum::<f64>();
    together / along
}
