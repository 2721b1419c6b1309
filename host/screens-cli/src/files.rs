//! Reading files of any sort without reading more than is due, and writing files whole or not at all.
use crate::failure::Failure;
use std::ffi::OsString;
use std::fs::{self, File, OpenOptions};
use std::io::{self, BufWriter, Read, Write};
use std::path::{Path, PathBuf};

/// Opens a file to read.
pub(crate) fn open(path: &Path) -> Result<File, Failure> {
    File::open(path).map_err(|error| Failure::file(path, error))
}

/// At most so many bytes of what is left in a file.
pub(crate) fn read_at_most(file: &mut impl Read, path: &Path, most: u64) -> Result<Vec<u8>, Failure> {
    let mut bytes = vec![];
    file.take(most)
        .read_to_end(&mut bytes)
        .map_err(|error| Failure::file(path, error))?;
    Ok(bytes)
}

/// A file that is being written under another name in the folder of its place. It is removed again unless it is put in its
/// place.
pub(crate) struct Output {
    place: PathBuf,
    temporary: PathBuf,
    done: bool,
}

impl Output {
    /// Writes all of a file, down to the disk.
    pub(crate) fn write(path: &Path, contents: impl FnOnce(&mut dyn Write) -> io::Result<()>) -> Result<Self, Failure> {
        let place = place(path).map_err(|error| Failure::file(path, error))?;
        let (temporary, file) = create(&place).map_err(|error| Failure::file(path, error))?;
        let output = Output {
            place,
            temporary,
            done: false,
        };
        fill(file, contents).map_err(|error| Failure::file(path, error))?;
        Ok(output)
    }

    /// Whether two outputs go to one place.
    pub(crate) fn clashes(&self, path: &Path) -> bool {
        place(path).is_ok_and(|place| place == self.place)
    }

    /// Puts the file in its place.
    pub(crate) fn put(mut self) -> Result<(), Failure> {
        fs::rename(&self.temporary, &self.place).map_err(|error| Failure::file(&self.place, error))?;
        self.done = true;
        // The name reaches the disk with its folder, where the system can do that.
        if let Some(folder) = self.place.parent() {
            let _ = File::open(folder).and_then(|folder| folder.sync_all());
        }
        Ok(())
    }
}

impl Drop for Output {
    fn drop(&mut self) {
        if !self.done {
            let _ = fs::remove_file(&self.temporary);
        }
    }
}

/// Whether files of two names go to one place.
pub(crate) fn same_place(a: &Path, b: &Path) -> bool {
    place(a).is_ok_and(|a| place(b).is_ok_and(|b| a == b))
}

/// Where a file of that name goes: behind symbolic links, and never in the place of what is no ordinary file or is not to be
/// written.
fn place(path: &Path) -> io::Result<PathBuf> {
    match fs::metadata(path) {
        Ok(found) if !found.is_file() => Err(io::Error::other(
            "there is something by that name that is no ordinary file",
        )),
        Ok(found) if found.permissions().readonly() => Err(io::Error::other("the file is not to be written")),
        Ok(_) => fs::canonicalize(path),
        Err(_) => {
            let name = path
                .file_name()
                .ok_or_else(|| io::Error::other("not a name for a file"))?;
            let folder = path.parent().filter(|folder| *folder != "").unwrap_or(Path::new("."));
            Ok(fs::canonicalize(folder)?.join(name))
        }
    }
}

/// A new file beside the place, with the permissions of what is there.
fn create(place: &Path) -> io::Result<(PathBuf, File)> {
    let (temporary, file) = unused(place)?;
    if let Ok(there) = fs::metadata(place) {
        let _ = file.set_permissions(there.permissions());
    }
    Ok((temporary, file))
}

/// A new file by a name that nothing beside the place has.
fn unused(place: &Path) -> io::Result<(PathBuf, File)> {
    let mut error = io::Error::other("no name for a new file");
    for attempt in 0..100 {
        let mut name = OsString::from(".");
        name.push(place.file_name().unwrap_or_default());
        name.push(format!(".{}.{attempt}.tmp", std::process::id()));
        let temporary = place.with_file_name(name);
        match OpenOptions::new().write(true).create_new(true).open(&temporary) {
            Ok(file) => return Ok((temporary, file)),
            Err(taken) if taken.kind() == io::ErrorKind::AlreadyExists => error = taken,
            Err(other) => return Err(other),
        }
    }
    Err(error)
}

fn fill(file: File, contents: impl FnOnce(&mut dyn Write) -> io::Result<()>) -> io::Result<()> {
    let mut out = BufWriter::new(file);
    contents(&mut out)?;
    out.flush()?;
    out.get_ref().sync_all()
}

/// Writes one file and puts it in its place.
pub(crate) fn save(path: &Path, contents: impl FnOnce(&mut dyn Write) -> io::Result<()>) -> Result<(), Failure> {
    Output::write(path, contents)?.put()
}
