//! Recorded samples, read in pieces.

use crate::csv::Column;
use crate::fault::Fault;
use crate::format::Recorded;
use crate::text::{content, without_mark};
use crate::wav::{self, Frames};
use crate::whole;
use std::ffi::{OsStr, OsString};
use std::fs::File;
use std::io::{self, BufRead, BufReader, Cursor, Read};

/// How to read a recording.
#[derive(Clone, Copy, Default)]
pub struct Reading<'a> {
    /// Its format. Where none is said, a WAV file is read as one and all else as text.
    pub format: Option<Recorded>,
    /// The column of CSV, by name or number.
    pub column: Option<&'a str>,
    /// The channel of a WAV file, from 1.
    pub channel: Option<usize>,
    /// Each sample is divided by 2 to this power and rounded down.
    pub shift: u32,
}

/// A recording that is read piece by piece.
pub struct Samples {
    source: BufReader<Box<dyn Read>>,
    name: OsString,
    kind: Kind,
    /// Its format, as it was said or found.
    pub format: Recorded,
    /// Samples a second, where the recording says it.
    pub rate: Option<f64>,
    shift: u32,
    line: usize,
    bytes_read: u64,
    bytes: Option<u64>,
}

enum Kind {
    Text,
    Csv(Column),
    Frames(Frames),
}

// Bytes read at once, and the longest line.
const MOST: usize = 65536;

impl Samples {
    /// Opens a recording; `-` is standard input.
    pub fn open(name: &OsStr, reading: Reading) -> Result<Samples, Fault> {
        if name == "-" {
            let source = Box::new(io::stdin());
            return Samples::from_source("standard input".as_ref(), source, reading);
        }
        let file = File::open(name).map_err(|why| Fault::file(name, why))?;
        let data = file.metadata().ok().filter(|data| data.is_file());
        let samples = Samples::from_source(name, Box::new(file), reading)?;
        Ok(Samples {
            bytes: data.map(|data| data.len()),
            ..samples
        })
    }

    /// A recording from any source; the name is for faults.
    pub fn from_source(
        name: &OsStr,
        mut source: Box<dyn Read>,
        reading: Reading,
    ) -> Result<Samples, Fault> {
        let front = front(&mut source).map_err(|why| Fault::file(name, why))?;
        let is_wav = front.len() == wav::MARK && wav::begins(&front);
        let format = format(reading.format, is_wav).map_err(|what| Fault::file(name, what))?;
        let source: Box<dyn Read> = Box::new(Cursor::new(front).chain(source));
        let mut samples = Samples {
            source: BufReader::with_capacity(MOST, source),
            name: name.to_os_string(),
            kind: Kind::Text,
            format,
            rate: None,
            shift: reading.shift,
            line: 0,
            bytes_read: 0,
            bytes: None,
        };
        samples.kind = samples.kind_of(reading)?;
        Ok(samples)
    }

    fn kind_of(&mut self, reading: Reading) -> Result<Kind, Fault> {
        let numbers = |width: usize| Frames {
            size: width,
            from: 0,
            width,
            left: None,
        };
        Ok(match self.format {
            Recorded::Text => Kind::Text,
            Recorded::Csv => Kind::Csv(Column::new(reading.column)),
            Recorded::Raw => Kind::Frames(numbers(4)),
            Recorded::Raw16 => Kind::Frames(numbers(2)),
            Recorded::Wav => {
                let head = wav::head(&mut self.source, reading.channel);
                let head = head.map_err(|what| Fault::file(&self.name, what))?;
                self.rate = Some(head.rate).filter(|rate| *rate > 0.0);
                self.bytes_read = head.bytes;
                Kind::Frames(head.frames)
            }
        })
    }

    /// The part that was read, 0 to 1, where the length is known.
    pub fn part_read(&self) -> Option<f64> {
        let bytes = self.bytes.filter(|bytes| *bytes > 0)?;
        Some((self.bytes_read as f64 / bytes as f64).min(1.0))
    }

    /// Puts the next samples in `piece`, at most `most` and none only at the end. From a pipe they are those that have come: it waits for the first alone.
    pub fn read(&mut self, piece: &mut Vec<i32>, most: usize) -> Result<(), Fault> {
        piece.clear();
        match self.kind {
            Kind::Text | Kind::Csv(_) => self.read_lines(piece, most)?,
            Kind::Frames(frames) => self.read_frames(frames, piece, most)?,
        }
        for sample in piece.iter_mut() {
            *sample >>= self.shift;
        }
        Ok(())
    }

    /// All samples that are left.
    pub fn all(mut self) -> Result<Vec<i32>, Fault> {
        let (mut all, mut piece) = (Vec::new(), Vec::new());
        loop {
            self.read(&mut piece, MOST)?;
            all.extend(&piece);
            if piece.is_empty() {
                return Ok(all);
            }
        }
    }

    fn read_lines(&mut self, piece: &mut Vec<i32>, most: usize) -> Result<(), Fault> {
        let mut bytes = Vec::new();
        while piece.len() < most && (piece.is_empty() || self.source.buffer().contains(&b'\n')) {
            if !self.read_line(&mut bytes)? {
                break;
            }
            let sample = self.sample(&bytes);
            let sample = sample.map_err(|what| Fault::line(&self.name, self.line, what))?;
            piece.extend(sample);
        }
        Ok(())
    }

    // The next line with its end; false where there is none.
    fn read_line(&mut self, bytes: &mut Vec<u8>) -> Result<bool, Fault> {
        bytes.clear();
        let mut ahead = (&mut self.source).take(MOST as u64 + 1);
        let read = ahead.read_until(b'\n', bytes);
        self.bytes_read += read.map_err(|why| Fault::file(&self.name, why))? as u64;
        self.line += 1;
        if bytes.len() > MOST {
            let what = format!(
                "over {MOST} bytes without an end of line; a recording that is no text is read with --format raw"
            );
            return Err(Fault::line(&self.name, self.line, what));
        }
        Ok(!bytes.is_empty())
    }

    // The sample of a line, where it has one.
    fn sample(&mut self, line: &[u8]) -> Result<Option<i32>, String> {
        let line = match self.line {
            1 => without_mark(line)?,
            _ => line,
        };
        match &mut self.kind {
            Kind::Csv(column) if !content(line).is_empty() => {
                column.sample(String::from_utf8_lossy(line).trim_end_matches(['\r', '\n']))
            }
            Kind::Text if !content(line).is_empty() => {
                text_sample(&String::from_utf8_lossy(content(line))).map(Some)
            }
            _ => Ok(None),
        }
    }

    fn read_frames(
        &mut self,
        frames: Frames,
        piece: &mut Vec<i32>,
        most: usize,
    ) -> Result<(), Fault> {
        let fault = |why: io::Error| Fault::file(&self.name, why);
        let here = self.source.fill_buf().map_err(fault)?.len() / frames.size;
        let wanted = here.clamp(1, most) * frames.size;
        let wanted = frames
            .left
            .map_or(wanted as u64, |left| left.min(wanted as u64));
        let mut bytes = Vec::new();
        let read = (&mut self.source).take(wanted).read_to_end(&mut bytes);
        read.map_err(fault)?;
        self.bytes_read += bytes.len() as u64;
        self.check_end(frames, bytes.len() as u64, wanted)?;
        let left = frames.left.map(|left| left - bytes.len() as u64);
        self.kind = Kind::Frames(Frames { left, ..frames });
        piece.extend(
            bytes
                .chunks_exact(frames.size)
                .map(|frame| number(frame, frames)),
        );
        Ok(())
    }

    // A recording may end only between two frames, and a WAV file only where its head says.
    fn check_end(&self, frames: Frames, read: u64, wanted: u64) -> Result<(), Fault> {
        let at = self.bytes_read;
        if read % frames.size as u64 != 0 {
            let what = format!("ends within a sample, at byte {at}");
            return Err(Fault::file(&self.name, what));
        }
        if let Some(left) = frames.left.filter(|_| read < wanted) {
            let missing = left - read;
            let what = format!("ends at byte {at}, {missing} bytes before its head says");
            return Err(Fault::file(&self.name, what));
        }
        Ok(())
    }
}

// The first bytes of a recording, as many as it takes to tell whether it is a WAV file.
fn front(source: &mut impl Read) -> io::Result<Vec<u8>> {
    let mut front = Vec::new();
    while front.len() < wav::MARK && wav::begins(&front) {
        let mut bytes = [0; wav::MARK];
        let read = source.read(&mut bytes[front.len()..])?;
        if read == 0 {
            break;
        }
        let from = front.len();
        front.extend(&bytes[from..from + read]);
    }
    Ok(front)
}

// The format of a recording that is a WAV file or not. One is never read as anything else.
fn format(said: Option<Recorded>, is_wav: bool) -> Result<Recorded, &'static str> {
    match said {
        None | Some(Recorded::Wav) if is_wav => Ok(Recorded::Wav),
        Some(Recorded::Wav) => Err("not a WAV file: it does not begin with RIFF and WAVE"),
        Some(_) if is_wav => Err("a WAV file; --format wav reads it"),
        Some(format) => Ok(format),
        None => Ok(Recorded::Text),
    }
}

fn text_sample(word: &str) -> Result<i32, String> {
    whole::sample(word).map_err(|what| match word {
        word if word.contains([',', ';', '\t']) => what + "; --format csv reads columns",
        word if word.contains(char::is_control) => what + "; --format raw reads bytes",
        _ => what,
    })
}

// The sample of a frame, with its sign.
fn number(frame: &[u8], frames: Frames) -> i32 {
    match frame[frames.from..frames.from + frames.width] {
        [a, b] => i32::from(i16::from_le_bytes([a, b])),
        [a, b, c] => i32::from_le_bytes([0, a, b, c]) >> 8,
        [a, b, c, d] => i32::from_le_bytes([a, b, c, d]),
        _ => 0,
    }
}

#[cfg(test)]
mod tests {
    use super::*;

    fn all(bytes: &'static [u8], reading: Reading, most: usize) -> Result<Vec<i32>, Fault> {
        let (mut all, mut piece) = (Vec::new(), Vec::new());
        let mut source = Samples::from_source("f".as_ref(), Box::new(bytes), reading)?;
        loop {
            source.read(&mut piece, most)?;
            assert!(piece.len() <= most);
            all.extend(&piece);
            if piece.is_empty() {
                return Ok(all);
            }
        }
    }

    fn reading(format: Recorded) -> Reading<'static> {
        Reading {
            format: Some(format),
            ..Reading::default()
        }
    }

    const STEREO: &[u8] = b"RIFF\0\0\0\0WAVEfmt \x10\0\0\0\x01\0\x02\0\x40\x1f\0\0\0\x7d\0\0\x06\0\x18\0data\x0c\0\0\0\x01\0\0\x02\0\0\x03\0\0\xfe\xff\xffmore";

    #[test]
    fn every_cutting_reads_the_same() {
        let text = b"\xef\xbb\xbf# cell 3\n1\n\n-2.0 # low\r\n2147483647";
        let raw = b"\x01\0\0\0\xfe\xff\xff\xff\xff\xff\xff\x7f";
        let raw16 = b"\x01\0\xfe\xff\xff\x7f";
        let csv = b"at,level\n1,1\n2,-2\n3,2147483647\n";
        let column = Reading {
            column: Some("level"),
            ..reading(Recorded::Csv)
        };
        let channel = Reading {
            channel: Some(2),
            ..Reading::default()
        };
        for most in 1..=5 {
            let wanted = Ok(vec![1, -2, i32::MAX]);
            assert_eq!(all(text, Reading::default(), most), wanted);
            assert_eq!(all(raw, reading(Recorded::Raw), most), wanted);
            assert_eq!(all(csv, column, most), wanted);
            let wanted = Ok(vec![1, -2, 32767]);
            assert_eq!(all(raw16, reading(Recorded::Raw16), most), wanted);
            assert_eq!(all(STEREO, channel, most), Ok(vec![2, -2]));
        }
    }

    #[test]
    fn a_shift_divides_and_rounds_down() {
        let shifted = Reading {
            shift: 8,
            ..Reading::default()
        };
        assert_eq!(all(b"256\n-1\n255\n", shifted, 9), Ok(vec![1, -1, 0]));
    }

    #[test]
    fn a_bad_sample_is_told_at_its_line() {
        let told = |bytes, format| all(bytes, reading(format), 9).unwrap_err().to_string();
        let said = "f:3: 2147483648 is not a whole number of 32 bits";
        assert_eq!(told(b"1\n#\n2147483648\n", Recorded::Text), said);
        let said = "f: ends within a sample, at byte 5";
        assert_eq!(told(b"\x01\0\0\0\xfe", Recorded::Raw), said);
        let said = "f: ends at byte 50, 6 bytes before its head says";
        let channel = Reading {
            channel: Some(1),
            ..Reading::default()
        };
        let fault = all(&STEREO[..50], channel, 9).unwrap_err();
        assert_eq!(fault.to_string(), said);
        for format in [
            Recorded::Raw,
            Recorded::Raw16,
            Recorded::Text,
            Recorded::Csv,
        ] {
            assert_eq!(told(STEREO, format), "f: a WAV file; --format wav reads it");
        }
    }

    #[test]
    fn a_line_without_end_is_told() {
        let long: &'static [u8] = Vec::leak(vec![b'1'; MOST + 1]);
        let fault = all(long, Reading::default(), 9).unwrap_err().to_string();
        assert!(fault.starts_with("f:1: over 65536 bytes") && fault.ends_with("--format raw"));
    }
}
