//! The commands, one a module: its help and what it does.
mod check;
mod density;
mod drop_shape;
mod energy;
mod matrix;
mod move_node;
mod plot;
mod return_shape;
mod row;
mod save_shape;
mod shapes;
mod write;

use crate::failure::Failure;
use std::ffi::OsString;

/// A command: what it prints if it is asked for help, and what it does with the words behind its name.
pub(crate) struct Command {
    pub(crate) name: &'static str,
    pub(crate) help: &'static str,
    pub(crate) run: fn(Vec<OsString>) -> Result<String, Failure>,
}

const COMMANDS: [Command; 12] = [
    check::COMMAND,
    write::COMMAND,
    matrix::COMMAND,
    row::COMMAND,
    energy::COMMAND,
    move_node::COMMAND,
    save_shape::COMMAND,
    shapes::COMMAND,
    return_shape::COMMAND,
    drop_shape::COMMAND,
    density::COMMAND,
    plot::COMMAND,
];

/// The command of a name.
pub(crate) fn named(name: &str) -> Result<&'static Command, Failure> {
    COMMANDS.iter().find(|command| command.name == name).ok_or_else(|| {
        let names = COMMANDS.map(|command| command.name).join(", ");
        Failure::usage(format!("no such command: {name}; there are {names} and help"))
    })
}
