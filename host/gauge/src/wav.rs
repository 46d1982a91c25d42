//! The head of a WAV file: where the samples of a channel stand.

use std::io::{self, Read};

/// Frames of some bytes, in each of which one sample stands.
#[derive(Clone, Copy, Debug, PartialEq, Eq)]
pub struct Frames {
    /// Bytes of a frame.
    pub size: usize,
    /// The first byte of the sample.
    pub from: usize,
    /// Bytes of the sample, little-endian with a sign: 2, 3 or 4.
    pub width: usize,
    /// Bytes that are left, where that is known.
    pub left: Option<u64>,
}

/// What the head of a WAV file says.
#[derive(Debug, PartialEq)]
pub struct Head {
    /// Where the channel's samples stand.
    pub frames: Frames,
    /// Samples a second.
    pub rate: f64,
    /// Bytes before the first frame.
    pub bytes: u64,
}

/// Bytes that are enough to tell a WAV file by.
pub const MARK: usize = 12;

/// Whether a file that begins with these bytes may be a WAV file, of any kind.
pub fn begins(bytes: &[u8]) -> bool {
    let kinds = [b"RIFF", b"RIFX", b"RF64", b"BW64"];
    let part = |from: usize, to: usize| &bytes[from.min(bytes.len())..to.min(bytes.len())];
    kinds.iter().any(|kind| kind.starts_with(part(0, 4))) && b"WAVE".starts_with(part(8, MARK))
}

/// Reads the head of a WAV file up to its first frame.
pub fn head(source: &mut impl Read, channel: Option<usize>) -> Result<Head, String> {
    let mut mark = [0; MARK];
    whole(source, &mut mark)?;
    if !mark.starts_with(b"RIFF") || !begins(&mark) {
        let kind = String::from_utf8_lossy(&mark[..4]).into_owned();
        return Err(format!(
            "not a WAV file of the kind RIFF; it begins with {kind}"
        ));
    }
    let mut bytes = MARK as u64;
    let mut format = None;
    loop {
        let (name, size) = chunk(source)?;
        bytes += 8;
        match &name {
            b"data" => return data(format, size, bytes, channel),
            b"fmt " => format = Some(fmt(source, size)?),
            _ => skip(source, u64::from(size))?,
        }
        // Chunks begin at even places.
        skip(source, u64::from(size % 2))?;
        bytes += u64::from(size) + u64::from(size % 2);
    }
}

fn data(
    format: Option<Fmt>,
    size: u32,
    bytes: u64,
    channel: Option<usize>,
) -> Result<Head, String> {
    // Programs that write to a pipe do not know the size, and put 0 or nearly the most there.
    const UNKNOWN: u32 = 0x7fff_0000;
    let format = format.ok_or("no format before its data")?;
    let left = (1..UNKNOWN).contains(&size).then_some(u64::from(size));
    let frames = Frames {
        left,
        ..format.frames(channel)?
    };
    Ok(Head {
        frames,
        rate: f64::from(format.rate),
        bytes,
    })
}

struct Fmt {
    coding: u16,
    channels: usize,
    rate: u32,
    frame: usize,
    bits: u16,
}

impl Fmt {
    fn frames(&self, channel: Option<usize>) -> Result<Frames, String> {
        const WHOLE_NUMBERS: u16 = 1;
        if self.coding != WHOLE_NUMBERS || !matches!(self.bits, 16 | 24 | 32) {
            let kind = match self.coding {
                WHOLE_NUMBERS => "",
                3 => " as floats",
                _ => " in a coding of its own",
            };
            let bits = self.bits;
            return Err(format!(
                "samples of {bits} bits{kind}; whole numbers of 16, 24 or 32 bits are read"
            ));
        }
        let width = usize::from(self.bits / 8);
        if self.channels == 0 || self.frame != self.channels * width {
            let (channels, frame) = (self.channels, self.frame);
            return Err(format!(
                "a broken head: {channels} channels of {width} bytes in {frame}"
            ));
        }
        Ok(Frames {
            size: self.frame,
            from: width * self.place(channel)?,
            width,
            left: None,
        })
    }

    fn place(&self, channel: Option<usize>) -> Result<usize, String> {
        let channels = self.channels;
        match channel {
            None if channels == 1 => Ok(0),
            None => Err(format!(
                "{channels} channels; --channel 1 to {channels} says which"
            )),
            Some(channel) if channel <= channels => Ok(channel - 1),
            Some(channel) => Err(format!("no channel {channel}; there are {channels}")),
        }
    }
}

fn fmt(source: &mut impl Read, size: u32) -> Result<Fmt, String> {
    const LEAST: u32 = 16;
    const EXTENDED: u32 = 40;
    if size < LEAST {
        return Err("a broken head: its format is too short".to_string());
    }
    let mut bytes = [0; EXTENDED as usize];
    let read = size.min(EXTENDED);
    whole(source, &mut bytes[..read as usize])?;
    skip(source, u64::from(size - read))?;
    let two = |at: usize| u16::from_le_bytes([bytes[at], bytes[at + 1]]);
    // An extended format has its coding at the end.
    let coding = if two(0) == 0xfffe { two(24) } else { two(0) };
    Ok(Fmt {
        coding,
        channels: usize::from(two(2)),
        rate: u32::from(two(4)) | u32::from(two(6)) << 16,
        frame: usize::from(two(12)),
        bits: two(14),
    })
}

fn chunk(source: &mut impl Read) -> Result<([u8; 4], u32), String> {
    let (mut name, mut size) = ([0; 4], [0; 4]);
    whole(source, &mut name)?;
    whole(source, &mut size)?;
    Ok((name, u32::from_le_bytes(size)))
}

fn skip(source: &mut impl Read, bytes: u64) -> Result<(), String> {
    let skipped = io::copy(&mut source.take(bytes), &mut io::sink());
    match skipped.map_err(|why| why.to_string())? {
        all if all == bytes => Ok(()),
        _ => Err(ENDS.to_string()),
    }
}

const ENDS: &str = "a WAV file that ends within its head";

fn whole(source: &mut impl Read, bytes: &mut [u8]) -> Result<(), String> {
    source.read_exact(bytes).map_err(|why| match why.kind() {
        io::ErrorKind::UnexpectedEof => ENDS.to_string(),
        _ => why.to_string(),
    })
}

#[cfg(test)]
mod tests {
    use super::*;

    // A head with this coding, channels, bits and size of data, behind a chunk of an odd size.
    fn file(coding: u16, channels: u16, bits: u16, size: u32) -> Vec<u8> {
        let frame = channels * (bits / 8);
        let mut bytes = b"RIFF\0\0\0\0WAVEnote\x03\0\0\0abc\0fmt \x10\0\0\0".to_vec();
        for two in [coding, channels, 8000, 0, 0, 0, frame, bits] {
            bytes.extend(two.to_le_bytes());
        }
        bytes.extend(b"data");
        bytes.extend(size.to_le_bytes());
        bytes
    }

    fn frames(bytes: &[u8], channel: Option<usize>) -> Result<Frames, String> {
        head(&mut &bytes[..], channel).map(|head| {
            assert_eq!((head.rate, head.bytes), (8000.0, bytes.len() as u64));
            head.frames
        })
    }

    #[test]
    fn a_channel_is_found() {
        let wanted = Frames {
            size: 6,
            from: 3,
            width: 3,
            left: Some(12),
        };
        assert_eq!(frames(&file(1, 2, 24, 12), Some(2)), Ok(wanted));
        let wanted = Frames {
            size: 2,
            from: 0,
            width: 2,
            left: None,
        };
        assert_eq!(frames(&file(1, 1, 16, 0), None), Ok(wanted));
        assert_eq!(frames(&file(1, 1, 16, u32::MAX), Some(1)), Ok(wanted));
    }

    #[test]
    fn what_is_not_read_is_told() {
        let cases = [
            (
                file(1, 2, 16, 4),
                None,
                "2 channels; --channel 1 to 2 says which",
            ),
            (file(1, 2, 16, 4), Some(3), "no channel 3; there are 2"),
            (
                file(1, 1, 8, 4),
                None,
                "samples of 8 bits; whole numbers of 16, 24 or 32 bits are read",
            ),
            (
                file(3, 1, 32, 4),
                None,
                "samples of 32 bits as floats; whole numbers of 16, 24 or 32 bits are read",
            ),
            (
                file(1, 0, 16, 4),
                None,
                "a broken head: 0 channels of 2 bytes in 0",
            ),
            (file(1, 1, 16, 4)[..30].to_vec(), None, ENDS),
            (
                b"RIFX\0\0\0\0WAVE".to_vec(),
                None,
                "not a WAV file of the kind RIFF; it begins with RIFX",
            ),
        ];
        for (bytes, channel, said) in cases {
            assert_eq!(frames(&bytes, channel), Err(said.to_string()));
        }
    }

    #[test]
    fn only_the_front_of_a_wav_file_is_taken_for_one() {
        for front in [
            &b""[..],
            b"RI",
            b"RIFF\x01\x02\x03\x04WAV",
            b"RF64\0\0\0\0WAVE",
        ] {
            assert!(begins(front));
        }
        for front in [&b"12\n"[..], b"RIFF\0\0\0\0AVI ", b"RIX"] {
            assert!(!begins(front));
        }
    }
}
