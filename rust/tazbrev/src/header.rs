//! What a header declares: which disks in which order, and which actors. The library judges whether it is a header.

use crate::error::Error;

/// The most bytes of a memory disk that a header makes, as for `geomrun`.
const MOST_RAM: u64 = 67_108_864;

/// A line of a disk.
#[derive(Debug)]
pub(crate) struct DiskLine {
    pub(crate) sector: u32,
    /// How many sectors a `ram` has; None for a disk of the caller's.
    pub(crate) ram: Option<usize>,
}

/// The lines of a header, as text and as what they declare.
#[derive(Debug)]
pub(crate) struct Header {
    pub(crate) text: String,
    pub(crate) disks: Vec<DiskLine>,
    pub(crate) actors: Vec<String>,
}

impl Header {
    pub(crate) fn new(text: &str) -> Result<Header, Error> {
        let mut header = Header {
            text: text.to_owned(),
            disks: Vec::new(),
            actors: Vec::new(),
        };
        if !text.is_empty() && !text.ends_with('\n') {
            header.text.push('\n');
        }
        for (line, number) in text.split('\n').zip(1..) {
            if !line.is_empty() && !line.starts_with('#') {
                header.take(line).ok_or(Error::Header { line: number })?;
            }
        }
        Ok(header)
    }

    /// Takes a line. None where it is no line of a header, as far as that must be known here.
    fn take(&mut self, line: &str) -> Option<()> {
        let words: Vec<&str> = line.split(' ').collect();
        match words[..] {
            ["actor", name] => self.actors.push(name.to_owned()),
            ["disk", _, sector, ..] => self.disks.push(DiskLine {
                sector: sector.parse().ok()?,
                ram: None,
            }),
            ["ram", _, sector, sectors, ..] => {
                let (sector, sectors): (u32, u64) = (sector.parse().ok()?, sectors.parse().ok()?);
                let bytes = u64::from(sector).checked_mul(sectors)?;
                let ram = (bytes <= MOST_RAM).then_some(sectors as usize)?;
                self.disks.push(DiskLine { sector, ram: Some(ram) });
            }
            _ => return None,
        }
        Some(())
    }
}
