//! Reports of masses.

/// Masses before and after a convention's scale.
#[repr(C)]
#[derive(Clone, Copy, Debug, PartialEq)]
pub struct MassReport {
    /// The mass of the weights as entered, kg.
    pub raw_mass: f64,
    /// The factor by which the density at the origin becomes the bulk density.
    pub rho0_scale: f64,
    /// The mass after that factor, kg.
    pub rho0_mass: f64,
    /// The convention's factor.
    pub applied_scale: f64,
    /// The mass after the convention's factor, kg.
    pub applied_mass: f64,
    /// The convention's target, kg; 0 where it has none.
    pub target_mass: f64,
    /// The mesh's volume, m³, below 0 where its faces are inside out.
    pub volume: f64,
}

/// What a store reports under a convention.
#[derive(Clone, Copy, Debug, PartialEq)]
pub struct StoreReport {
    /// The masses.
    pub mass: MassReport,
    /// The filled places.
    pub kernels: u32,
    /// Their pieces.
    pub pieces: u32,
    /// The greatest error of a fit, as a fraction of its kernel's peak.
    pub error: f64,
}

/// What a store reports of the places whose work is done.
#[derive(Clone, Copy, Debug, PartialEq)]
pub struct Finished {
    /// The report of those places.
    pub report: StoreReport,
    /// The filled places that it passed over, since work is left in them.
    pub passed_over: u32,
}
