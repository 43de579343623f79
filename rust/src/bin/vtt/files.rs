//! Files read and written. A file that is written takes its place whole or not at all: it is written beside, read again and only then renamed.
use super::arguments::{is_standard, Output};
use super::failure::{Failure, DONE, UNREACHED};
use super::screen;
use std::fs::{self, File, OpenOptions};
use std::io::{ErrorKind, Read, Write};
use std::os::unix::fs::{chown, MetadataExt, OpenOptionsExt};
use std::path::{Path, PathBuf};

/// How a file is called in messages.
pub fn name(file: &Path) -> String {
    if is_standard(file) {
        "standard input".into()
    } else {
        file.display().to_string()
    }
}

/// The bytes of a file, or of standard input. Of one that is too long only so much is read that the library refuses it.
pub fn read(file: &Path) -> Result<Vec<u8>, Failure> {
    let most = spatzenherd::MAX_FILE as u64 + 1;
    let mut bytes = vec![];
    let got = if is_standard(file) {
        std::io::stdin().take(most).read_to_end(&mut bytes)
    } else {
        File::open(file).and_then(|open| open.take(most).read_to_end(&mut bytes))
    };
    got.map_err(|error| Failure::unreached(name(file), format!("cannot be read: {}", reason(&error))))?;
    Ok(bytes)
}

/// What the system says of a failure, in words.
fn reason(error: &std::io::Error) -> String {
    match error.kind() {
        ErrorKind::NotFound => "there is no such file".into(),
        ErrorKind::PermissionDenied => "permission is denied".into(),
        _ if error.raw_os_error() == Some(21) => "it is a folder".into(),
        _ => {
            let words = error.to_string();
            words.split(" (os error").next().unwrap_or_default().to_lowercase()
        }
    }
}

fn cannot_write<'a>(file: &'a Path) -> impl Fn(std::io::Error) -> Failure + 'a {
    |error| Failure::unreached(file.display(), format!("cannot be written: {}", reason(&error)))
}

/// Prints on standard output. Where its reader has gone there is nobody to tell.
pub fn print(bytes: &[u8]) -> Result<u8, Failure> {
    let mut out = std::io::stdout().lock();
    match out.write_all(bytes).and_then(|()| out.flush()) {
        Ok(()) => Ok(DONE),
        Err(error) if error.kind() == ErrorKind::BrokenPipe => Err(Failure { status: UNREACHED, message: String::new() }),
        Err(error) => Err(Failure::unreached("standard output", format!("cannot be written: {}", reason(&error)))),
    }
}

/// Puts a result where it is to go, which is not in place.
pub fn put_out(output: &Output, bytes: &[u8]) -> Result<u8, Failure> {
    match output {
        Output::File(file) if !is_standard(file) => write(file, bytes).map(|()| DONE),
        _ => print(bytes),
    }
}

/// Writes a file. What is no regular file, a device or a link that leads nowhere for example, is written to as it is.
fn write(file: &Path, bytes: &[u8]) -> Result<(), Failure> {
    let old = fs::metadata(file).ok();
    let leads_nowhere = old.is_none() && fs::symlink_metadata(file).is_ok();
    if leads_nowhere || old.as_ref().is_some_and(|old| !old.is_file()) {
        let mut open = OpenOptions::new().write(true).create(leads_nowhere).open(file).map_err(cannot_write(file))?;
        return open.write_all(bytes).map_err(cannot_write(file));
    }
    let place = if old.is_some() { followed(file)? } else { file.to_path_buf() };
    let beside = Beside::written(&place, bytes, old.is_some())?;
    if let Some(old) = old {
        may_be_written(&place)?;
        beside.take_over(&old, file)?;
    }
    beside.rename(&place)
}

/// Puts a new file in the place of an old one whose bytes are known: written beside, read again and held to `check`, then renamed. On any
/// failure the old file is as it was. Hands back where the old one is kept, if it is to be.
pub fn replace(
    file: &Path,
    old: &[u8],
    new: &[u8],
    backup: bool,
    check: impl FnOnce(&[u8]) -> Result<(), String>,
) -> Result<Option<PathBuf>, Failure> {
    let place = followed(file)?;
    let about = fs::metadata(&place).map_err(cannot_write(file))?;
    if !about.is_file() {
        return Err(Failure::unreached(file.display(), "cannot be changed in place: it is not a regular file"));
    }
    may_be_written(&place)?;
    let beside = Beside::written(&place, new, true)?;
    let found = fs::read(&beside.path).map_err(cannot_write(file))?;
    if found != new {
        return Err(Failure::unreached(file.display(), "the new file does not read back as it was written; the old one is untouched"));
    }
    check(&found).map_err(|reason| {
        Failure::unreached(file.display(), format!("the new file fails its check: {reason}; the old one is untouched"))
    })?;
    beside.take_over(&about, file)?;
    if read(&place)? != old {
        return Err(Failure::unreached(file.display(), "was changed by someone else meanwhile; it is left as it is"));
    }
    let kept = if backup { Some(keep(&place)?) } else { None };
    beside.rename(&place)?;
    Ok(kept)
}

/// Where a file is kept, in words, after a message.
pub fn kept_words(kept: &Option<PathBuf>) -> String {
    kept.as_ref().map_or(String::new(), |kept| format!("; the old file is kept as {}", kept.display()))
}

/// The file that a name leads to: a link stays a link, and what it leads to is replaced.
fn followed(file: &Path) -> Result<PathBuf, Failure> {
    let is_link = fs::symlink_metadata(file).map_err(cannot_write(file))?.is_symlink();
    if is_link {
        fs::canonicalize(file).map_err(cannot_write(file))
    } else {
        Ok(file.to_path_buf())
    }
}

/// A file that may not be written is not replaced either, though its folder would allow it.
fn may_be_written(file: &Path) -> Result<(), Failure> {
    OpenOptions::new().write(true).open(file).map(|_| ()).map_err(cannot_write(file))
}

/// Keeps the old file as `NAME.bak`, or with a number after it where that is taken: no older backup is lost.
fn keep(file: &Path) -> Result<PathBuf, Failure> {
    for number in 0..u64::MAX {
        let mut kept = file.as_os_str().to_os_string();
        kept.push(if number == 0 { ".bak".into() } else { format!(".bak.{number}") });
        let kept = PathBuf::from(kept);
        let done = fs::hard_link(file, &kept).or_else(|error| match error.kind() {
            ErrorKind::AlreadyExists => Err(error),
            _ => copied(file, &kept),
        });
        match done {
            Ok(()) => return Ok(kept),
            Err(error) if error.kind() == ErrorKind::AlreadyExists => {}
            Err(error) => return Err(cannot_write(&kept)(error)),
        }
    }
    Err(Failure::unreached(file.display(), "no name is left for a backup"))
}

/// A copy, for a folder that has no links, under a name that is not taken.
fn copied(file: &Path, kept: &Path) -> std::io::Result<()> {
    let mut open = OpenOptions::new().write(true).create_new(true).open(kept)?;
    open.write_all(&fs::read(file)?)?;
    open.set_permissions(fs::metadata(file)?.permissions())?;
    open.sync_all()
}

/// A new file beside the one whose place it is to take. It is removed where it does not come to that.
struct Beside {
    path: PathBuf,
    renamed: bool,
}

impl Beside {
    /// With these bytes. A private one is its owner's alone until it takes over another file's permissions.
    fn written(place: &Path, bytes: &[u8], private: bool) -> Result<Beside, Failure> {
        let mode = if private { 0o600 } else { 0o666 };
        let (beside, mut open) = Beside::made(place, mode).map_err(|error| match error.kind() {
            ErrorKind::NotFound => Failure::unreached(place.display(), "cannot be written: its folder does not exist"),
            _ => cannot_write(place)(error),
        })?;
        open.write_all(bytes).and_then(|()| open.sync_all()).map_err(cannot_write(place))?;
        Ok(beside)
    }

    fn made(place: &Path, mode: u32) -> std::io::Result<(Beside, File)> {
        let mut number = 0;
        loop {
            let path = place.with_file_name(format!(".vtt-{}-{number}.tmp", std::process::id()));
            match OpenOptions::new().write(true).create_new(true).mode(mode).open(&path) {
                Err(error) if error.kind() == ErrorKind::AlreadyExists => number += 1,
                open => return open.map(|open| (Beside { path, renamed: false }, open)),
            }
        }
    }

    /// Takes over the permissions of the file whose place it takes, and its owner and group where the system lets us.
    fn take_over(&self, old: &fs::Metadata, file: &Path) -> Result<(), Failure> {
        let own = fs::metadata(&self.path).map_err(cannot_write(file))?;
        if own.gid() != old.gid() && chown(&self.path, None, Some(old.gid())).is_err() {
            screen::tell(&format!("{}: note: its group could not be kept", file.display()));
        }
        if own.uid() != old.uid() && chown(&self.path, Some(old.uid()), None).is_err() {
            screen::tell(&format!("{}: note: its owner could not be kept", file.display()));
        }
        fs::set_permissions(&self.path, old.permissions()).map_err(cannot_write(file))
    }

    fn rename(mut self, place: &Path) -> Result<(), Failure> {
        fs::rename(&self.path, place).map_err(cannot_write(place))?;
        self.renamed = true;
        // The new name is on the disk once its folder is; where a folder cannot be opened for this, the system sees to it later.
        let folder = place.parent().filter(|folder| !folder.as_os_str().is_empty()).unwrap_or(Path::new("."));
        let _ = File::open(folder).and_then(|folder| folder.sync_all());
        Ok(())
    }
}

impl Drop for Beside {
    fn drop(&mut self) {
        if !self.renamed {
            let _ = fs::remove_file(&self.path);
        }
    }
}
