//! A file that takes its place only when it is whole.

use std::ffi::OsStr;
use std::fs::{self, File, Metadata, OpenOptions};
use std::io::{self, ErrorKind, Seek, Write};
use std::os::unix::fs::{MetadataExt, OpenOptionsExt};
use std::path::{Path, PathBuf};
use std::process;

/// What is written so far, and the place that it is for. All but the last of it stands in a file without a name, which is gone when the tool ends, however it ends.
pub struct Draft {
    place: PathBuf,
    nameless: File,
    // Bytes in the nameless file, and those behind them.
    settled: u64,
    last: Vec<u8>,
}

// Bytes that are held in memory.
const MOST: usize = 1 << 20;

impl Draft {
    /// A draft of the file of this name. Where it could not be written that is an error now, and not at the end.
    pub fn of(name: &OsStr) -> io::Result<Draft> {
        let place = match fs::metadata(name) {
            Ok(_) => {
                File::options().write(true).open(name)?;
                fs::canonicalize(name)?
            }
            Err(why) if why.kind() == ErrorKind::NotFound => led_to(name),
            Err(why) => return Err(why),
        };
        Ok(Draft {
            nameless: nameless(&place)?,
            place,
            settled: 0,
            last: Vec::new(),
        })
    }

    /// Adds bytes.
    pub fn write(&mut self, bytes: &[u8]) -> io::Result<()> {
        self.last.extend(bytes);
        if self.last.len() >= MOST {
            self.nameless.write_all(&self.last)?;
            self.settled += self.last.len() as u64;
            self.last.clear();
        }
        Ok(())
    }

    /// All is written: the file takes its place.
    pub fn settle(mut self) -> io::Result<()> {
        self.nameless.rewind()?;
        let own = self.nameless.metadata()?;
        match fs::metadata(&self.place) {
            Ok(old) if !may_be_replaced(&old, &own) => self.write_over(),
            Ok(old) => self.replace(Some(old)),
            Err(_) => self.replace(None),
        }
    }

    // The file gets its name when it is whole, with the mode of the old one.
    fn replace(&mut self, old: Option<Metadata>) -> io::Result<()> {
        let (mut whole, path) = fresh(&self.place)?;
        let moded = old.map_or(Ok(()), |old| whole.set_permissions(old.permissions()));
        let copied = moded.and_then(|()| self.copy_to(&mut whole));
        let renamed = copied.and_then(|_| fs::rename(&path, &self.place));
        if renamed.is_err() {
            // The first error is the one to tell.
            let _ = fs::remove_file(&path);
        }
        renamed
    }

    fn write_over(&mut self) -> io::Result<()> {
        let mut place = File::options().write(true).open(&self.place)?;
        let bytes = self.copy_to(&mut place)?;
        place.set_len(bytes)
    }

    fn copy_to(&mut self, file: &mut File) -> io::Result<u64> {
        if self.settled > 0 {
            io::copy(&mut self.nameless, file)?;
        }
        file.write_all(&self.last)?;
        Ok(self.settled + self.last.len() as u64)
    }
}

// Another name of the same file would stay behind with what was there, and so would an owner who is not ours.
fn may_be_replaced(old: &Metadata, own: &Metadata) -> bool {
    old.nlink() == 1 && (old.uid(), old.gid()) == (own.uid(), own.gid())
}

// A place that is not there yet; where a link leads to one, the link stays.
fn led_to(name: &OsStr) -> PathBuf {
    let mut place = PathBuf::from(name);
    while let Ok(to) = fs::read_link(&place) {
        place = place.with_file_name(to);
    }
    place
}

// A file without a name in the directory of a place: one that Linux makes so, or else one whose name is taken off at once.
fn nameless(place: &Path) -> io::Result<File> {
    let directory = match place.parent() {
        Some(directory) if directory != Path::new("") => directory,
        _ => Path::new("."),
    };
    let made = writable().custom_flags(O_TMPFILE).open(directory);
    made.or_else(|_| {
        let (file, path) = fresh(place)?;
        fs::remove_file(path)?;
        Ok(file)
    })
}

// The flag of open(2) on Linux, with O_DIRECTORY, which older systems know alone: they refuse to write a directory.
const O_TMPFILE: i32 = 0o20_000_000 | O_DIRECTORY;
const O_DIRECTORY: i32 = if cfg!(any(target_arch = "arm", target_arch = "aarch64")) {
    0o40_000
} else {
    0o200_000
};

fn writable() -> OpenOptions {
    let mut options = File::options();
    options.read(true).write(true);
    options
}

// A new file beside a place. Names that were left behind are passed over.
fn fresh(place: &Path) -> io::Result<(File, PathBuf)> {
    const MOST: u32 = 10_000;
    let mut at = 0;
    loop {
        let path = place.with_file_name(format!(".gauge-{}-{at}", process::id()));
        match writable().create_new(true).open(&path) {
            Err(why) if why.kind() == ErrorKind::AlreadyExists && at < MOST => at += 1,
            created => return created.map(|file| (file, path)),
        }
    }
}
