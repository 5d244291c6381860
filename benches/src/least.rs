//! The least times of rows that come again and again.

/// The times of a call, in nanoseconds, the earlier library's first.
pub type Times = [f64; 2];

/// The least times of each row, of two calls that it times.
pub struct Least(Vec<[Times; 2]>);

impl Least {
    /// So many rows, none timed yet.
    pub fn new(rows: usize) -> Least {
        Least(vec![[[f64::INFINITY; 2]; 2]; rows])
    }

    pub fn rows(&self) -> usize {
        self.0.len()
    }

    /// Adds the times of a round, whose row comes again after all others.
    pub fn add(&mut self, round: usize, times: [Times; 2]) {
        let row = round % self.rows();
        let least = self.0[row].as_flattened_mut();
        for (least, time) in least.iter_mut().zip(times.as_flattened()) {
            *least = least.min(*time);
        }
    }

    /// The means of the rows' least times, of one of the calls.
    pub fn means(&self, which: usize) -> Times {
        [0, 1].map(|place| {
            let least = self.0.iter().map(|row| row[which][place]);
            let timed: Vec<f64> = least.filter(|time| time.is_finite()).collect();
            timed.iter().sum::<f64>() / timed.len() as f64
        })
    }
}
