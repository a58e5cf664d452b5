
// Added for the comparison.
impl<T: SignedInteger> SignedCDTSampler<T> {
    pub(crate) fn bounds(&self) -> &[u64] {
        &self.cdt
    }

    pub(crate) fn over(std_dev: f64, bounds: &[u64]) -> Self {
        Self {
            std_dev,
            cdt: bounds.to_vec(),
            output: PhantomData,
        }
    }
}
