
// Added for the comparison: a sampler over a prepared Gaussian.
impl<T: FheUint> ErrorSampler<T> {
    pub fn over(gaussian: SignedDiscreteGaussian<T::SignedInteger>) -> Self {
        Self {
            distribution: ErrorDistribution::Gaussian {
                standard_deviation: gaussian.standard_deviation(),
            },
            method: SamplingMethod::Gaussian(gaussian),
        }
    }
}
