
// Added for the comparison.
impl<T: FheInt + SignedInteger> SignedDiscreteZiggurat<T> {
    pub(crate) fn layers(&self) -> (Vec<u64>, Vec<f64>, Vec<f64>) {
        self.core.layers()
    }

    pub(crate) fn over(standard_deviation: f64, endpoints: &[u64], heights: &[f64]) -> Self {
        Self {
            core: ZigguratMagnitudeSampler::over(standard_deviation, endpoints, heights),
            maximum_magnitude: endpoints[endpoints.len() - 1],
        }
    }
}
