//! 01's conventions, and what a reading makes of pieces by one: the lines of `from_toml_impl` after its decomposition, without
//! preserve_alpha. That function reads a file, so its lines are written again here; all they call is the original's own text.
use crate::pieces::Kernel;
use crate::text::Text;

pub const RAW: u32 = 0;
pub const RHO0: u32 = 1;
pub const MASS: u32 = 2;

/// Raw, rho0 with a bulk density, or mass with target and bulk; to C any kind past the first two is mass.
#[repr(C)]
#[derive(Clone, Copy, Debug)]
pub struct Convention {
    pub kind: u32,
    pub target: f64,
    pub bulk: f64,
}

/// `MassReport`'s seven floats in its order, and what 01's report adds.
#[derive(Clone, Copy, Debug)]
pub struct Report {
    pub mass: [f64; 7],
    pub kernels: u32,
    pub pieces: u32,
    pub error: f64,
}

#[derive(Clone, Copy, PartialEq, Eq, Debug)]
pub enum Reading {
    Density,
    Report,
    List,
}

impl Convention {
    pub const RAW: Convention = Convention { kind: RAW, target: 0.0, bulk: 0.0 };

    pub fn rho0(bulk: f64) -> Convention {
        Convention { kind: RHO0, target: 0.0, bulk }
    }

    pub fn mass_of(target: f64, bulk: f64) -> Convention {
        Convention { kind: MASS, target, bulk }
    }

    fn is_mass(self) -> bool {
        self.kind != RAW && self.kind != RHO0
    }

    /// "Raw reports with bulk 1190 [..] Bulk not above 0 (or NaN) is 1190".
    pub fn cleaned_bulk(self) -> f64 {
        if self.kind != RAW && self.bulk > 0.0 { self.bulk } else { 1190.0 }
    }

    /// "raw and rho0 report target 0 [..] a target not above 0 (or NaN, or -0) is +0".
    pub fn cleaned_target(self) -> f64 {
        if self.is_mass() && self.target > 0.0 { self.target } else { 0.0 }
    }

    /// Row 8: "left > 0, for report, or density and list by mass with target > 0".
    pub fn needs_work(self, reading: Reading) -> bool {
        reading == Reading::Report || (self.is_mass() && self.target > 0.0)
    }

    /// rho0's scale, of pieces as they are.
    pub fn rho0_scale<T: Text>(self, pieces: &[Kernel]) -> f64 {
        let rho0 = T::densitize(pieces, [0.0, 0.0, 0.0]);
        if rho0.abs() > 1e-30 { self.cleaned_bulk() / rho0 } else { 1.0 }
    }

    /// The scale that is applied; the raw mass is asked for by mass with a target alone.
    pub fn applied_scale<T: Text>(self, pieces: &[Kernel], raw_mass: impl FnOnce() -> f64) -> f64 {
        let target = self.cleaned_target();
        match self.kind {
            RAW => 1.0,
            _ if target > 0.0 => {
                let raw = raw_mass();
                if raw.is_finite() && raw.abs() > 1e-30 { target / raw } else { self.rho0_scale::<T>(pieces) }
            }
            _ => self.rho0_scale::<T>(pieces),
        }
    }

    /// The pieces with their weights rescaled.
    pub fn rescaled<T: Text>(self, pieces: &[Kernel], raw_mass: impl FnOnce() -> f64) -> Vec<Kernel> {
        let scale = self.applied_scale::<T>(pieces, raw_mass);
        pieces.iter().map(|k| Kernel { w: k.w * scale, ..*k }).collect()
    }

    /// `MassReport`'s floats.
    pub fn mass<T: Text>(self, pieces: &[Kernel], raw_mass: f64, volume: f64) -> [f64; 7] {
        let rho0_scale = self.rho0_scale::<T>(pieces);
        let applied = self.applied_scale::<T>(pieces, || raw_mass);
        [raw_mass, rho0_scale, raw_mass * rho0_scale, applied, raw_mass * applied, self.cleaned_target(), volume]
    }
}

/// 02's L1: the density of the pieces at each point, in point order, or 14 "when the track has more than 4,096 points, its coordinate count
/// isn't a multiple of 3, or the run is too short".
pub fn write_track<T: Text>(pieces: &[Kernel], points: &[f64], out: &mut [f64]) -> Result<u32, u32> {
    let count = points.len() / 3;
    if count > 4_096 || !points.len().is_multiple_of(3) || out.len() < count {
        return Err(14);
    }
    for (to, at) in out.iter_mut().zip(points.chunks(3)) {
        *to = T::densitize(pieces, [at[0], at[1], at[2]]);
    }
    Ok(count as u32)
}

/// Writes six floats per piece, or refuses by row 9.
pub fn write_list(pieces: &[Kernel], out: &mut [f64]) -> Result<u32, u32> {
    if out.len() < 6 * pieces.len() {
        return Err(9);
    }
    for (to, k) in out.chunks_mut(6).zip(pieces) {
        to.copy_from_slice(&[k.c[0], k.c[1], k.c[2], k.sigma, k.w, k.alpha]);
    }
    Ok(pieces.len() as u32)
}
