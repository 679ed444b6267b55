//! The mesh as rows, read from the text that `geomrun` prints at its end.

use crate::error::Error;
use std::fmt;
use std::str::FromStr;

/// How many rights there are to read, to write, and to exclude others.
#[derive(Debug, Clone, Copy, PartialEq, Eq, Hash, Default)]
pub struct Counts {
    /// To read.
    pub r: u32,
    /// To write.
    pub w: u32,
    /// To exclude others.
    pub e: u32,
}

impl Counts {
    /// The right to read.
    pub const READ: Counts = Counts { r: 1, w: 0, e: 0 };
    /// The rights to read and to write.
    pub const READ_WRITE: Counts = Counts { r: 1, w: 1, e: 0 };
    /// The rights to read, to write, and to exclude other writers.
    pub const EXCLUSIVE: Counts = Counts { r: 1, w: 1, e: 1 };
}

impl fmt::Display for Counts {
    fn fmt(&self, out: &mut fmt::Formatter<'_>) -> fmt::Result {
        write!(out, "r{}w{}e{}", self.r, self.w, self.e)
    }
}

impl FromStr for Counts {
    type Err = Error;

    fn from_str(text: &str) -> Result<Counts, Error> {
        let read = || {
            let (r, rest) = text.strip_prefix('r')?.split_once('w')?;
            let (w, e) = rest.split_once('e')?;
            Some(Counts {
                r: r.parse().ok()?,
                w: w.parse().ok()?,
                e: e.parse().ok()?,
            })
        };
        read().ok_or_else(|| Error::Text(text.to_owned()))
    }
}

/// The gate at which a geom offers service.
#[derive(Debug, Clone, PartialEq, Eq)]
pub struct Provider {
    /// Its name.
    pub name: String,
    /// How many bytes its media has.
    pub size: u64,
    /// How many bytes a sector has.
    pub sector: u32,
    /// The sums over its consumers.
    pub counts: Counts,
    /// The name of the error that it carries.
    pub error: Option<String>,
}

/// The back door by which a geom is attached to a provider.
#[derive(Debug, Clone, PartialEq, Eq)]
pub struct Consumer {
    /// The provider's name.
    pub provider: String,
    /// What it has open.
    pub counts: Counts,
}

/// An instance of a class, with its providers and consumers.
#[derive(Debug, Clone, PartialEq, Eq)]
pub struct Geom {
    /// The class, as `DISK`.
    pub kind: String,
    /// Its name.
    pub name: String,
    /// Its rank.
    pub rank: u32,
    /// Whether it is being let go.
    pub is_withering: bool,
    /// Its providers.
    pub providers: Vec<Provider>,
    /// Its consumers.
    pub consumers: Vec<Consumer>,
}

/// The geoms of such a text, in its order.
pub fn parse(text: &str) -> Result<Vec<Geom>, Error> {
    let mut geoms = Vec::new();
    for line in text.lines() {
        add(&mut geoms, line).ok_or_else(|| Error::Text(line.to_owned()))?;
    }
    Ok(geoms)
}

/// Adds what a line says.
fn add(geoms: &mut Vec<Geom>, line: &str) -> Option<()> {
    let words: Vec<&str> = line.trim_start().split(' ').collect();
    match words[..] {
        ["geom", kind, name, "rank", rank, ref end @ ..] if matches!(end, [] | ["withering"]) => geoms.push(Geom {
            kind: kind.to_owned(),
            name: name.to_owned(),
            rank: rank.parse().ok()?,
            is_withering: !end.is_empty(),
            providers: Vec::new(),
            consumers: Vec::new(),
        }),
        ["provider", name, "size", size, "sector", sector, counts, ref end @ ..] if end.len() <= 1 => {
            geoms.last_mut()?.providers.push(Provider {
                name: name.to_owned(),
                size: size.parse().ok()?,
                sector: sector.parse().ok()?,
                counts: counts.parse().ok()?,
                error: end.first().map(|&it| it.to_owned()),
            });
        }
        ["consumer", provider, counts] => geoms.last_mut()?.consumers.push(Consumer {
            provider: provider.to_owned(),
            counts: counts.parse().ok()?,
        }),
        _ => return None,
    }
    Some(())
}

#[cfg(test)]
mod tests {
    use super::*;

    const TEXT: &str = "geom DISK md0 rank 1 withering\n  provider md0 size 2048 sector 512 r1w0e1 ENXIO\n\
                        geom NOP md0.nop rank 2\n  consumer md0 r1w0e1\n";

    #[test]
    fn a_text_becomes_rows() {
        let geoms = parse(TEXT).unwrap();
        assert_eq!(geoms.len(), 2);
        assert!(geoms[0].is_withering && !geoms[1].is_withering);
        assert_eq!(geoms[0].providers[0].error.as_deref(), Some("ENXIO"));
        assert_eq!(geoms[1].consumers[0].counts.to_string(), "r1w0e1");
    }

    #[test]
    fn a_line_of_another_form_is_named() {
        assert_eq!(parse("geom DISK\n"), Err(Error::Text("geom DISK".to_owned())));
        assert!(parse("  consumer md0 r1w0e1\n").is_err());
        assert!(parse("geom DISK md0 rank 1 dead\n").is_err());
    }
}
