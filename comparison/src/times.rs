//! Times and how they are shown.

/// Times of the same work, in seconds.
pub struct Times {
    sorted: Vec<f64>,
}

impl Times {
    pub fn of(mut times: Vec<f64>) -> Times {
        times.sort_by(f64::total_cmp);
        Times { sorted: times }
    }

    /// The value below which so many quarters of the times lie, between neighbours if need be.
    fn quarter(&self, quarters: usize) -> f64 {
        let place = (self.sorted.len() - 1) as f64 * quarters as f64 / 4.0;
        let below = self.sorted[place.floor() as usize];
        let above = self.sorted[place.ceil() as usize];
        below + (above - below) * place.fract()
    }

    /// The value in the middle.
    pub fn median(&self) -> f64 {
        self.quarter(2)
    }

    /// Median and quartiles in microseconds.
    pub fn shown(&self) -> String {
        let [low, middle, high] = [1, 2, 3].map(|quarters| microseconds(self.quarter(quarters)));
        format!("{middle} ({low}–{high})")
    }
}

/// Seconds in microseconds, with three figures or more.
pub fn microseconds(seconds: f64) -> String {
    let value = seconds * 1e6;
    match value {
        _ if value >= 100.0 => format!("{value:.0}"),
        _ if value >= 10.0 => format!("{value:.1}"),
        _ if value >= 1.0 => format!("{value:.2}"),
        _ => format!("{value:.3}"),
    }
}

/// The processor's name.
pub fn machine() -> String {
    let text = std::fs::read_to_string("/proc/cpuinfo").unwrap_or_default();
    let name = text
        .lines()
        .find(|line| line.starts_with("model name"))
        .and_then(|line| line.split(':').nth(1));
    name.unwrap_or("unknown processor").trim().to_string()
}
