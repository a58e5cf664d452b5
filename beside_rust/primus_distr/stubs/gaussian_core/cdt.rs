// Not among the given files: written from document 01 in the shape of precise_cdt.rs, with f64.
use super::GaussianParameters;

/// "M+2 bounds, first 0, last 2^64−1, never falling", each the share of the magnitudes before it.
pub(crate) fn build_cdt(parameters: GaussianParameters) -> (f64, Vec<u64>) {
    let standard_deviation = parameters.standard_deviation();
    let mut shares = vec![0.5];
    for magnitude in 1..=parameters.maximum_magnitude() {
        let scaled = magnitude as f64 / standard_deviation;
        shares.push((-0.5 * scaled * scaled).exp());
    }
    let sum: f64 = shares.iter().sum();
    let mut cumulative = 0.0;
    let mut cdt = vec![0];
    for share in &shares {
        cumulative += share;
        cdt.push((cumulative / sum * 18_446_744_073_709_551_616.0) as u64);
    }
    *cdt.last_mut().unwrap() = u64::MAX;
    (standard_deviation, cdt)
}
