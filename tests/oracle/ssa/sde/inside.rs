//! Added to the source's module as its child, so that it can reach what is private: the sampler and a path.
use super::{compile_sde, sde_path, CompiledModel, GaussianSampler};
use crate::ssa::{sample_grid, Xoshiro256};

/// The first `n` normal draws from a seed.
pub fn normals(seed: u64, n: usize) -> Vec<f64> {
    let mut sampler = GaussianSampler::new(seed);
    (0..n).map(|_| sampler.normal()).collect()
}

/// Normal draws from a generator's state with or without a spare, and what is left of both.
pub fn normals_from(state: [u64; 4], spare: Option<f64>, n: usize) -> (Vec<f64>, [u64; 4], Option<f64>) {
    let mut sampler = GaussianSampler { rng: Xoshiro256::from_state(state), spare };
    let drawn = (0..n).map(|_| sampler.normal()).collect();
    (drawn, sampler.rng.state(), sampler.spare)
}

/// The path of one seed, place by place.
pub fn path(model: &CompiledModel, horizon: f64, samples: usize, seed: u64) -> Vec<f64> {
    let x0: Vec<f64> = model.initial.iter().map(|&m| m as f64).collect();
    let shown = sde_path(&compile_sde(model), &x0, &sample_grid(horizon, samples), &mut GaussianSampler::new(seed));
    (0..x0.len()).flat_map(|p| shown.iter().map(move |x| x[p])).collect()
}
