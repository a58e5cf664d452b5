
/// Added for the comparison: the tables of a Gaussian, as this project's draws are lent them.
#[derive(Clone, Debug, Default, PartialEq)]
pub struct Tables {
    pub bounds: Vec<u64>,
    pub endpoints: Vec<u64>,
    pub heights: Vec<f64>,
    pub curve: Vec<f64>,
}

impl Tables {
    /// The tables that the constructor makes.
    pub fn of(gaussian: &SignedDiscreteGaussian<i64>) -> Self {
        let mut tables = Self::default();
        match gaussian {
            SignedDiscreteGaussian::Cdt(sampler) => tables.bounds = sampler.bounds().to_vec(),
            SignedDiscreteGaussian::Ziggurat(sampler) => {
                (tables.endpoints, tables.heights, tables.curve) = sampler.layers();
            }
        }
        tables
    }

    /// A Gaussian over these tables; its curve is the Rust's own.
    pub fn gaussian(&self, standard_deviation: f64) -> SignedDiscreteGaussian<i64> {
        if self.endpoints.is_empty() {
            SignedDiscreteGaussian::Cdt(SignedCDTSampler::over(standard_deviation, &self.bounds))
        } else {
            SignedDiscreteGaussian::Ziggurat(SignedDiscreteZiggurat::over(
                standard_deviation,
                &self.endpoints,
                &self.heights,
            ))
        }
    }
}
