//! The outputs of a command that changes a screen and renews its matrix.
use crate::args::Args;
use crate::failure::Failure;
use crate::files::{self, Output};
use crate::npy::Matrix;
use screens::TriangleMesh;
use std::io::Write;
use std::path::{Path, PathBuf};

/// Where the matrix goes, and the panel file if it is asked for.
pub(crate) struct Outputs {
    out: PathBuf,
    mesh_out: Option<PathBuf>,
}

impl Outputs {
    /// Those of `-o`, which has to be given, and `--mesh-out`.
    pub(crate) fn new(args: &mut Args) -> Result<Self, Failure> {
        Ok(Outputs {
            out: args.output()?,
            mesh_out: args.option_path("--mesh-out"),
        })
    }

    /// That neither would take the place of an input that is to stay.
    pub(crate) fn spare(&self, path: &Path, what: &str) -> Result<(), Failure> {
        for (option, out) in [("-o", Some(&self.out)), ("--mesh-out", self.mesh_out.as_ref())] {
            if out.is_some_and(|out| files::same_place(out, path)) {
                return Err(Failure::usage(format!("{option} and {what} name the same file")));
            }
        }
        Ok(())
    }

    /// Writes both, prints the note on standard error, and yields what is said of the count of renewed cells and the files.
    pub(crate) fn renewed(
        &self,
        count: usize,
        matrix: &Matrix,
        mesh: &TriangleMesh,
        note: &str,
    ) -> Result<String, Failure> {
        self.write(matrix, &mesh.to_panel_file())?;
        // Nothing is left to do if standard error is closed.
        let _ = std::io::stderr().write_all(note.as_bytes());
        let also = self.mesh_out.as_ref();
        let also = also.map(|path| format!(" and {}", path.display())).unwrap_or_default();
        Ok(format!(
            "{count} of {} cells renewed\n{}wrote {}{also}\n",
            matrix.cells.len(),
            matrix.note(),
            self.out.display(),
        ))
    }

    /// Writes the matrix, and the mesh if it is asked for: both in full before either takes its place.
    fn write(&self, matrix: &Matrix, mesh: &[u8]) -> Result<(), Failure> {
        let cells = Output::write(&self.out, |file| matrix.write(file))?;
        if let Some(path) = &self.mesh_out {
            if cells.clashes(path) {
                return Err(Failure::usage("-o and --mesh-out name the same file"));
            }
            Output::write(path, |file| file.write_all(mesh))?.put()?;
        }
        cells.put()
    }
}
