// Not among the given files; lib.rs exports these names, and no draw here goes by them.
pub struct CDTSampler;
pub struct DiscreteGaussian;
pub struct DiscreteZiggurat;
