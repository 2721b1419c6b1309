//! What `--help` prints.
use crate::commands;
use crate::failure::Failure;
use std::ffi::OsString;

/// All commands, and the main job by example.
pub(crate) const GENERAL: &str = "\
usage: screens COMMAND ...

  check FILE                                     tests a panel file and says what it holds
  write NODES PANELS | FILE -o OUT.pnl           writes a panel file
  matrix FILE --rule N -o OUT.npy                computes the inductance matrix
  row MATRIX.npy NODE                            shows a row in whole nanohenries
  energy MATRIX.npy --ring FILE | --values FILE  the energy of nodal values
  move FILE MATRIX.npy --node K --to X Y Z --rule N -o OUT.npy
                                                 moves a node and renews the matrix
  save FILE STORE --name NAME                    saves the shape of a screen under a name
  shapes STORE                                   lists the shapes that a store holds
  return FILE STORE MATRIX.npy --name NAME --rule N -o OUT.npy
                                                 returns to a saved shape and renews the matrix
  drop FILE STORE --name NAME                    drops a saved shape
  density FILE                                   the current density on each panel
  plot FILE -o OUT.svg                           draws the panels

For example, from the repository's folder:

  screens check examples/plate.pnl
  screens matrix examples/plate.pnl --rule 3 -o plate.npy
  screens row plate.npy 144
  screens energy plate.npy --ring examples/plate.pnl
  screens plot examples/plate.pnl -o plate.svg

FILE is a panel file, NODES and PANELS are rows of three numbers (NumPy or text), MATRIX.npy is a NumPy file (float64, n rows
of n), STORE holds up to eight shapes of a screen. Units are metres, amperes and henries; nodes, panels and places are counted
from 0. `screens help COMMAND` says more about one.

Exit status: 0 done; 1 refused, with the number and the word of the README's table; 2 bad usage, or a file that cannot be read
or written. An output file is there whole or not at all.
";

/// `screens help`, or `screens help COMMAND`.
pub(crate) fn asked(command: Option<&OsString>) -> Result<String, Failure> {
    match command {
        None => Ok(GENERAL.to_string()),
        Some(name) if name == "help" => Ok(GENERAL.to_string()),
        Some(name) => Ok(commands::named(&name.to_string_lossy())?.help.to_string()),
    }
}
