//! What can be asked of a mesh without a store.
use crate::{Kernel, MassReport, Refusal, sys};

/// A triangle mesh: vertices in metres, faces as numbers of vertices from 0, seen anticlockwise from outside.
///
/// ```
/// use cauchy::Mesh;
///
/// let vertices = [[0.0, 0.0, 0.0], [6.0, 0.0, 0.0], [0.0, 6.0, 0.0], [0.0, 0.0, 6.0]];
/// let faces = [[0, 2, 1], [0, 1, 3], [0, 3, 2], [1, 2, 3]];
/// let mesh = Mesh { vertices: &vertices, faces: &faces };
/// assert!((mesh.volume()? - 36.0).abs() < 1e-9);
/// # Ok::<(), cauchy::Refusal>(())
/// ```
#[derive(Clone, Copy, Debug, PartialEq)]
pub struct Mesh<'a> {
    /// The vertices, m.
    pub vertices: &'a [[f64; 3]],
    /// The faces' corners.
    pub faces: &'a [[u32; 3]],
}

impl<'a> Mesh<'a> {
    pub(crate) fn runs(self) -> (&'a [f64], &'a [u32]) {
        (self.vertices.as_flattened(), self.faces.as_flattened())
    }

    /// `Ok` where the mesh is closed, without which a mass inside it means nothing: no face names a corner twice,
    /// and each edge of a face, from a corner to the next, occurs once over all faces, its reverse also once. A
    /// mesh without faces is closed. [`Store::open`](crate::Store::open) takes meshes that are not.
    ///
    /// ```
    /// # let vertices = [[0.0, 0.0, 0.0], [6.0, 0.0, 0.0], [0.0, 6.0, 0.0], [0.0, 0.0, 6.0]];
    /// use cauchy::{Mesh, Refusal};
    ///
    /// let faces = [[0, 2, 1], [0, 1, 3], [0, 3, 2], [1, 2, 3]];
    /// assert_eq!(Mesh { vertices: &vertices, faces: &faces }.closed(), Ok(()));
    /// let hole = &faces[1..];
    /// assert_eq!(Mesh { vertices: &vertices, faces: hole }.closed(), Err(Refusal::NotClosed));
    /// ```
    pub fn closed(self) -> Result<(), Refusal> {
        let (xyz, faces) = self.runs();
        // SAFETY: slices, borrowed for the call and only read.
        Refusal::check(unsafe { sys::cauchy_closed(xyz.as_ptr(), xyz.len(), faces.as_ptr(), faces.len()) })
    }

    /// The enclosed volume, m³, below 0 where the faces are inside out.
    ///
    /// ```
    /// # let vertices = [[0.0, 0.0, 0.0], [6.0, 0.0, 0.0], [0.0, 6.0, 0.0], [0.0, 0.0, 6.0]];
    /// let inside_out = [[0, 1, 2], [0, 3, 1], [0, 2, 3], [1, 3, 2]];
    /// let mesh = cauchy::Mesh { vertices: &vertices, faces: &inside_out };
    /// assert!(mesh.volume()? < -35.9);
    /// # Ok::<(), cauchy::Refusal>(())
    /// ```
    pub fn volume(self) -> Result<f64, Refusal> {
        let (xyz, faces) = self.runs();
        // SAFETY: slices, borrowed for the call and only read.
        let told = unsafe { sys::cauchy_body_volume(xyz.as_ptr(), xyz.len(), faces.as_ptr(), faces.len()) };
        Refusal::check(told.no).map(|()| told.value)
    }

    /// The centroid of the enclosed volume, m; zeros where that is tiny or NaN.
    ///
    /// ```
    /// # let vertices = [[0.0, 0.0, 0.0], [6.0, 0.0, 0.0], [0.0, 6.0, 0.0], [0.0, 0.0, 6.0]];
    /// # let faces = [[0, 2, 1], [0, 1, 3], [0, 3, 2], [1, 2, 3]];
    /// let mesh = cauchy::Mesh { vertices: &vertices, faces: &faces };
    /// assert!(mesh.centroid()?.iter().all(|x| (x - 1.5).abs() < 1e-9));
    /// # Ok::<(), cauchy::Refusal>(())
    /// ```
    pub fn centroid(self) -> Result<[f64; 3], Refusal> {
        let (xyz, faces) = self.runs();
        // SAFETY: slices, borrowed for the call and only read.
        let told =
            unsafe { sys::cauchy_volume_centroid(xyz.as_ptr(), xyz.len(), faces.as_ptr(), faces.len()) };
        Refusal::check(told.no).map(|()| [told.at.x, told.at.y, told.at.z])
    }

    /// The integral of (1 + sigma² · |x − c|²)^−1 over the inside, m³.
    ///
    /// ```
    /// # let vertices = [[0.0, 0.0, 0.0], [6.0, 0.0, 0.0], [0.0, 6.0, 0.0], [0.0, 0.0, 6.0]];
    /// # let faces = [[0, 2, 1], [0, 1, 3], [0, 3, 2], [1, 2, 3]];
    /// let mesh = cauchy::Mesh { vertices: &vertices, faces: &faces };
    /// assert_eq!(mesh.kernel_volume([0.0; 3], 0.0), mesh.volume());
    /// assert!(mesh.kernel_volume([0.0; 3], 0.1)? < mesh.volume()?);
    /// # Ok::<(), cauchy::Refusal>(())
    /// ```
    pub fn kernel_volume(self, c: [f64; 3], sigma: f64) -> Result<f64, Refusal> {
        let (xyz, faces) = self.runs();
        let (n_xyz, n_faces) = (xyz.len(), faces.len());
        // SAFETY: slices, borrowed for the call and only read.
        let told = unsafe {
            sys::cauchy_kernel_volume(xyz.as_ptr(), n_xyz, faces.as_ptr(), n_faces, c.into(), sigma)
        };
        Refusal::check(told.no).map(|()| told.value)
    }

    /// The mass of a list of kernels inside, kg, their exponents taken as 1.
    ///
    /// ```
    /// # let vertices = [[0.0, 0.0, 0.0], [6.0, 0.0, 0.0], [0.0, 6.0, 0.0], [0.0, 0.0, 6.0]];
    /// # let faces = [[0, 2, 1], [0, 1, 3], [0, 3, 2], [1, 2, 3]];
    /// let mesh = cauchy::Mesh { vertices: &vertices, faces: &faces };
    /// let kernel = cauchy::Kernel { c: [1.0; 3], sigma: 0.1, w: 1200.0, alpha: 1.0 };
    /// assert_eq!(mesh.mass(&[kernel])?, 1200.0 * mesh.kernel_volume([1.0; 3], 0.1)?);
    /// # Ok::<(), cauchy::Refusal>(())
    /// ```
    pub fn mass(self, kernels: &[Kernel]) -> Result<f64, Refusal> {
        let (xyz, faces) = self.runs();
        let list = Kernel::flat(kernels);
        // SAFETY: slices, borrowed for the call and only read.
        let told = unsafe {
            sys::cauchy_field_mass(
                xyz.as_ptr(),
                xyz.len(),
                faces.as_ptr(),
                faces.len(),
                list.as_ptr(),
                list.len(),
            )
        };
        Refusal::check(told.no).map(|()| told.value)
    }

    /// The report of a body of one density, kg/m³, which is taken as it is given.
    ///
    /// ```
    /// # let vertices = [[0.0, 0.0, 0.0], [6.0, 0.0, 0.0], [0.0, 6.0, 0.0], [0.0, 0.0, 6.0]];
    /// # let faces = [[0, 2, 1], [0, 1, 3], [0, 3, 2], [1, 2, 3]];
    /// let mesh = cauchy::Mesh { vertices: &vertices, faces: &faces };
    /// let report = mesh.homogeneous(1190.0)?;
    /// assert_eq!(report.applied_mass, 1190.0 * mesh.volume()?);
    /// # Ok::<(), cauchy::Refusal>(())
    /// ```
    pub fn homogeneous(self, bulk: f64) -> Result<MassReport, Refusal> {
        let (xyz, faces) = self.runs();
        // SAFETY: slices, borrowed for the call and only read.
        let told =
            unsafe { sys::cauchy_homogeneous(bulk, xyz.as_ptr(), xyz.len(), faces.as_ptr(), faces.len()) };
        Refusal::check(told.no).map(|()| told.report)
    }
}
