//! The files that one run of the program writes.
use crate::failure::Result;
use crate::options::{Options, Origin};
use crate::output::{self, Output};
use std::path::{Path, PathBuf};

/// The files to be written.
pub struct Outputs {
    pub csv: Option<Output>,
    pub svg: Option<Output>,
    pub list: Option<Output>,
    pub page: Option<Output>,
    pub snapshot: Option<Output>,
}

impl Outputs {
    /// Finds each of them possible, and none in the way of another or of an input.
    pub fn prepare(options: &Options) -> Result<Outputs> {
        // A resumed snapshot may be brought on in its own file.
        let in_place = match (&options.origin, &options.snapshot) {
            (Origin::Snapshot(read), Some(written)) => output::are_one(read, written),
            _ => false,
        };
        let paths = [&options.csv, &options.svg, &options.list, &options.page, &options.snapshot];
        let outputs: Vec<&Path> = paths.into_iter().flatten().map(PathBuf::as_path).collect();
        let mut inputs: Vec<&Path> = options.track.iter().map(PathBuf::as_path).collect();
        match &options.origin {
            Origin::Files(files, _) => inputs.extend([files.mesh.as_path(), files.kernels.as_path()]),
            Origin::Lines(path) => inputs.push(path),
            Origin::Snapshot(path) if !in_place => inputs.push(path),
            Origin::Snapshot(_) => {}
        }
        output::check_apart(&outputs, &inputs)?;
        let prepared = |path: &Option<PathBuf>, replace| {
            path.as_deref().map(|path| Output::prepare(path, replace)).transpose()
        };
        Ok(Outputs {
            csv: prepared(&options.csv, options.overwrite)?,
            svg: prepared(&options.svg, options.overwrite)?,
            list: prepared(&options.list, options.overwrite)?,
            page: prepared(&options.page, options.overwrite)?,
            snapshot: prepared(&options.snapshot, options.overwrite || in_place)?,
        })
    }

    /// What they are called.
    pub fn names(&self) -> Vec<String> {
        shown(&[&self.csv, &self.svg, &self.list, &self.page, &self.snapshot])
    }

    /// What those of a track are called.
    pub fn names_of_track(&self) -> Vec<String> {
        shown(&[&self.csv, &self.svg])
    }
}

fn shown(outputs: &[&Option<Output>]) -> Vec<String> {
    outputs.iter().filter_map(|output| output.as_ref()).map(Output::name).collect()
}
