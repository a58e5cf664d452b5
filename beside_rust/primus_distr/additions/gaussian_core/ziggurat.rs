
// Added for the comparison: the tables by value, and a sampler over lent ones.
impl<T: FheInt> ZigguratMagnitudeSampler<T> {
    /// Endpoints, heights and the curve up to the largest magnitude.
    pub(crate) fn layers(&self) -> (Vec<u64>, Vec<f64>, Vec<f64>) {
        let endpoints: Vec<u64> = self.x.iter().map(|&x| x as u64).collect();
        let curve = (0..=*endpoints.last().unwrap()).map(|m| self.pdf(m as f64)).collect();
        (endpoints, self.y.clone(), curve)
    }

    /// What `new` prepares once its tables are found, of lent tables.
    pub(crate) fn over(standard_deviation: f64, endpoints: &[u64], y: &[f64]) -> Self {
        let x: Vec<f64> = endpoints.iter().map(|&endpoint| endpoint as f64).collect();
        let (mut y_difference, mut slope) = (vec![0.0], vec![0.0]);
        let mut strategies = vec![FallRegion::Middle];
        for i in 1..x.len() {
            let width = x[i] - x[i - 1];
            let top = if i == 1 { 1.0 } else { y[i - 1] };
            y_difference.push(y[i - 1] - y[i]);
            slope.push(if width == 0.0 { 0.0 } else { (y[i] - top) / width });
            strategies.push(if x[i] + 1.0 <= standard_deviation {
                FallRegion::Left
            } else if standard_deviation <= x[i - 1] {
                FallRegion::Right
            } else {
                FallRegion::Middle
            });
        }
        let sample_x = |&value: &f64| Uniform::new_inclusive(T::ZERO, T::as_from(value)).unwrap();
        Self {
            standard_deviation,
            inverse_negative_twice_variance: (standard_deviation * standard_deviation * -2.0).recip(),
            sample_rectangle: Uniform::new_inclusive(1, x.len() - 1).unwrap(),
            sample_x: x.iter().map(sample_x).collect(),
            zero_acceptance: Bernoulli::new(0.5 / y[0]).unwrap(),
            x,
            y: y.to_vec(),
            y_difference,
            slope,
            strategies,
        }
    }
}
