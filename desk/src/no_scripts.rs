//! In place of `scripts` where the feature `visits` is off: the commands say that they are not there.

use crate::args::Asked;
use crate::commands::{Desk, Stop};
use crate::words::called;
use pilgonca::Sheet;
use std::path::Path;

/// Whether a text is a sheet that is accepted.
pub fn is_right(bytes: &[u8]) -> bool {
    Sheet::read(bytes).is_ok()
}

impl Desk {
    pub fn run(
        &self,
        _script: &Path,
        _svg: Option<&Path>,
        _save: Option<&Path>,
    ) -> Result<String, Stop> {
        Err(absent("run"))
    }

    pub fn audit(&self, _script: &Path, _asked: &Asked) -> Result<String, Stop> {
        Err(absent("audit"))
    }

    /// What keeps a text from being right.
    pub fn right(&self, path: &Path, bytes: &[u8]) -> Result<(), Stop> {
        self.accepted_unnamed(path, bytes).map(|_| ())
    }

    pub fn powers(&self, _sheet: &Path) -> Result<String, Stop> {
        Err(absent("powers"))
    }

    pub fn diff(&self, _old: &Path, _new: &Path) -> Result<String, Stop> {
        Err(absent("diff"))
    }
}

fn absent(command: &str) -> Stop {
    let called = called();
    Stop::usage(format!("this desk was built without requests, and so without {called} {command}; ./run desk {command} builds all of it"))
}
