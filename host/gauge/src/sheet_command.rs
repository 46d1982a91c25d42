//! `gauge sheet`: lists a tap sheet, puts one together, takes an entry out, turns an old one into a new one.

use crate::fault::{Fault, front, tell};
use crate::nearest::did_you_mean;
use crate::numbers::{Number, in_sheet, in_text};
use crate::options::Options;
use crate::same_file::refuse_same;
use crate::sheet::{SheetFile, converted, entries, is_new, pairs};
use crate::target::Target;
use crate::text::{read_bytes, read_small};
use gauge_line::Sheet;
use std::ffi::{OsStr, OsString};
use std::fmt::Write;
use std::path::Path;

const COMMANDS: [&str; 4] = ["list", "pack", "unpack", "convert"];

/// Does what the arguments behind `sheet` ask for.
pub fn sheet(arguments: &[OsString]) -> Result<(), Fault> {
    let (command, rest) = arguments
        .split_first()
        .ok_or_else(|| Fault::usage("sheet without list, pack, unpack or convert"))?;
    let command = command.to_string_lossy();
    match &*command {
        "list" => list(rest),
        "pack" => pack(rest),
        "unpack" => unpack(rest),
        "convert" => convert(rest),
        _ => {
            let hint = did_you_mean(&command, &COMMANDS);
            let command = front(&command);
            Err(Fault::usage(format!("no command sheet {command}{hint}")))
        }
    }
}

fn print(out: &OsStr, bytes: &[u8]) -> Result<(), Fault> {
    let mut target = Target::create(out)?;
    target.write(bytes)?;
    target.finish()
}

fn list(arguments: &[OsString]) -> Result<(), Fault> {
    let options = Options::parse(arguments, &["--in"], "--in")?;
    let file = SheetFile::read(Path::new(options.needed("--in")?))?;
    print("-".as_ref(), table(&file)?.as_bytes())
}

// A line for each entry: where it stands, and how many numbers it is.
fn table(file: &SheetFile) -> Result<String, Fault> {
    let sheet = file.sheet()?;
    let form = match is_new(&file.bytes) {
        true => "new form",
        false => "old form",
    };
    let (count, bytes) = (entries(sheet.len()), file.bytes.len());
    let mut text = format!("{count} in {bytes} bytes, {form}\n");
    if !sheet.is_empty() {
        text += "entry  offset   bytes    taps  prototype\n";
    }
    for (k, (offset, size)) in pairs(&file.bytes).into_iter().enumerate() {
        let (taps, floats) = (numbers(size, i16::BYTES), numbers(size, f32::BYTES));
        // A text in memory takes whatever is written.
        let _ = writeln!(
            text,
            "{k:>5}  {offset:>6}  {size:>6}  {taps:>6}  {floats:>9}"
        );
    }
    Ok(text)
}

// How many numbers so many bytes are.
fn numbers(bytes: u64, each: usize) -> String {
    match (bytes / each as u64, bytes % each as u64) {
        (count, 0) => count.to_string(),
        _ => "-".to_string(),
    }
}

// Entries to be packed: what each is, and its file.
type Given<'a> = Vec<(&'static str, &'a OsStr)>;

const KINDS: [&str; 3] = ["--taps", "--prototype", "--bytes"];

fn pack(arguments: &[OsString]) -> Result<(), Fault> {
    let (given, rest) = given(arguments)?;
    let options = Options::parse(&rest, &["--out"], "--out")?;
    let out = options.needed("--out")?;
    refuse_same("--out", out, &given)?;
    let mut joined = Vec::new();
    let mut lengths = Vec::new();
    for (kind, file) in &given {
        let bytes = packed(kind, Path::new(file))?;
        lengths.push(bytes.len());
        joined.extend(bytes);
    }
    let mut span = vec![0; 2 + 8 * lengths.len() + joined.len()];
    let length = Sheet::write(&joined, &lengths, &mut span)
        .map_err(|refusal| Fault::usage(format!("{} entries: {refusal}", lengths.len())))?;
    print(out, &span[..length])
}

// The entries, in their order, and the arguments that are none.
fn given(arguments: &[OsString]) -> Result<(Given<'_>, Vec<OsString>), Fault> {
    let mut entries = Vec::new();
    let mut others = Vec::new();
    let mut rest = arguments.iter();
    while let Some(argument) = rest.next() {
        match KINDS.into_iter().find(|kind| argument == kind) {
            Some(kind) => {
                let file = rest
                    .next()
                    .ok_or_else(|| Fault::usage(format!("{kind} without a file")))?;
                entries.push((kind, file.as_os_str()));
            }
            None => others.push(argument.clone()),
        }
    }
    Ok((entries, others))
}

// The bytes of an entry: numbers of a text, or a file as it is.
fn packed(kind: &str, file: &Path) -> Result<Vec<u8>, Fault> {
    let text = || read_small(file).map_err(|why| Fault::file(file, why));
    match kind {
        "--taps" => Ok(bytes_of::<i16>(&in_text(file, &text()?, NO_ENTRY)?)),
        "--prototype" => Ok(bytes_of::<f32>(&in_text(file, &text()?, NO_ENTRY)?)),
        _ => read_bytes(file).map_err(|why| Fault::file(file, why)),
    }
}

// What does without numbers.
const NO_ENTRY: &str = "a sheet without the entry";

fn bytes_of<T: Number>(numbers: &[T]) -> Vec<u8> {
    numbers.iter().flat_map(Number::bytes).collect()
}

fn unpack(arguments: &[OsString]) -> Result<(), Fault> {
    let known = ["--in", "--entry", "--as", "--out"];
    let options = Options::parse(arguments, &known, "--in")?;
    let file = Path::new(options.needed("--in")?);
    options.needed("--entry")?;
    let k = options.whole("--entry", 0, usize::MAX)?.unwrap_or(0);
    let out = options.get("--out").unwrap_or("-".as_ref());
    refuse_same("--out", out, &[("the sheet", file.as_os_str())])?;
    let bytes = match options.text("--as")?.unwrap_or("bytes") {
        "bytes" => SheetFile::read(file)?.entry(k)?.to_vec(),
        "taps" => text_of::<i16>(&in_sheet(file, k)?),
        "prototype" => text_of::<f32>(&in_sheet(file, k)?),
        other => {
            let other = front(other);
            return Err(Fault::usage(format!(
                "--as {other} is not bytes, taps or prototype"
            )));
        }
    };
    print(out, &bytes)
}

fn text_of<T: Number>(numbers: &[T]) -> Vec<u8> {
    let line = |number: &T| format!("{number}\n");
    numbers.iter().map(line).collect::<String>().into_bytes()
}

// Entries that get another number are told, one line each.
fn convert(arguments: &[OsString]) -> Result<(), Fault> {
    let [from, out] = arguments else {
        let why = "sheet convert takes a sheet and the file for the new one";
        return Err(Fault::usage(why));
    };
    refuse_same("the new sheet", out, &[("the sheet", from.as_os_str())])?;
    let file = SheetFile::read(Path::new(from))?;
    file.sheet()?;
    let (bytes, order) = converted(&file.bytes);
    print(out, &bytes)?;
    for (now, former) in order.into_iter().enumerate() {
        if now != former {
            tell(format_args!("gauge: entry {former} is entry {now} now"));
        }
    }
    Ok(())
}
