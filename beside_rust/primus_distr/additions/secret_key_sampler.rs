
// Added for the comparison: a sampler over a prepared Gaussian.
impl<T: FheUint> SecretKeySampler<T> {
    pub fn over(gaussian: SignedDiscreteGaussian<T::SignedInteger>) -> Self {
        Self {
            distr: SecretKeyDistr::gaussian(gaussian.standard_deviation()),
            method: SamplingMethod::Gaussian(gaussian),
        }
    }
}
