//! Manifests: which table each axis of an installation should hold, in
//! records of 35 bytes that rise by axis number, so that an installation has
//! one list. The report reads the tables that it does hold from a stream, each
//! led by its axis number and its length.

use std::collections::{BTreeMap, BTreeSet};
use std::fmt::{self, Display, Formatter};
use std::io::{self, ErrorKind, Read};

use crate::running::start;
use crate::variants::{variant, Variant};
use crate::{BAD_MANIFEST, BAD_RECORD, DONE, MESSAGE_LIMIT, NOT_RISING};

/// The bytes of a record: two of axis number, one of variant, and 32 of a
/// digest with zeros behind it.
pub const RECORD_BYTES: usize = 35;

/// The greatest number of records.
pub const RECORD_LIMIT: usize = 512;

/// The greatest number of tables that a report looks at.
pub const TABLE_LIMIT: usize = 65_535;

/// A table's bytes are hashed so many at a time.
const PIECE_BYTES: usize = 64;

/// What a report counts.
#[derive(Clone, Copy, Debug, Default, PartialEq, Eq)]
pub struct Counts {
    /// Axes that have a record.
    pub listed: usize,
    /// Tables that came whole.
    pub tables: usize,
    /// Tables with the digest that their axis's record has.
    pub equal: usize,
    /// Tables of a listed axis without it.
    pub unequal: usize,
    /// Listed axes of which no table came.
    pub untold: usize,
    /// Tables of no listed axis.
    pub unlisted: usize,
}

/// The lines that the program prints.
impl Display for Counts {
    fn fmt(&self, out: &mut Formatter) -> fmt::Result {
        let Counts {
            listed,
            tables,
            equal,
            unequal,
            untold,
            unlisted,
        } = self;
        writeln!(out, "listed {listed}")?;
        writeln!(out, "tables {tables}")?;
        writeln!(out, "equal {equal}")?;
        writeln!(out, "unequal {unequal}")?;
        writeln!(out, "untold {untold}")?;
        writeln!(out, "unlisted {unlisted}")
    }
}

/// What an axis's table should be.
#[derive(Clone, Debug, PartialEq, Eq)]
pub struct Record {
    /// How the table is hashed.
    pub variant: &'static Variant,
    /// What comes of it, in as many bytes as the variant's digests have.
    pub digest: Vec<u8>,
}

/// How a table stands.
enum Verdict {
    Equal,
    Unequal,
    Unlisted,
}

/// A table that came whole.
struct Told {
    axis: u16,
    verdict: Verdict,
}

/// Whether a report can be made of the list: refusals 12, 13 and 14.
pub fn check(list: &[u8]) -> Result<(), u8> {
    held(list).map(drop)
}

/// The one list of an installation with these axes. If they are at most
/// [`RECORD_LIMIT`], it passes, and [`held`] gives them back. Panics if a digest
/// has not the bytes of its variant.
pub fn list_of(records: &BTreeMap<u16, Record>) -> Vec<u8> {
    let mut list = Vec::new();
    // A map gives its axes in rising order.
    for (axis, Record { variant, digest }) in records {
        assert_eq!(digest.len(), variant.digest_bytes(), "axis {axis}");
        list.extend(axis.to_be_bytes());
        list.push(variant.number as u8);
        list.extend(digest);
        list.resize(list.len().next_multiple_of(RECORD_BYTES), 0);
    }
    list
}

/// What a list holds, or the refusal number 12, 13 or 14.
pub fn held(list: &[u8]) -> Result<BTreeMap<u16, Record>, u8> {
    if !list.len().is_multiple_of(RECORD_BYTES) || list.len() / RECORD_BYTES > RECORD_LIMIT {
        return Err(BAD_MANIFEST);
    }
    let mut records = BTreeMap::new();
    for bytes in list.chunks(RECORD_BYTES) {
        let (axis, record) = record(bytes).ok_or(BAD_RECORD)?;
        // They have risen so far: the greatest is the one before.
        let before = records.last_key_value();
        if before.is_some_and(|(&before, _)| axis <= before) {
            return Err(NOT_RISING);
        }
        records.insert(axis, record);
    }
    Ok(records)
}

/// The counts of the tables in a stream, or the refusal number 12, 13 or 14.
/// Fails if the stream cannot be read. No more is kept than the records, and
/// nothing is read behind the last table.
pub fn report(list: &[u8], mut stream: impl Read) -> io::Result<Result<Counts, u8>> {
    let records = match held(list) {
        Ok(records) => records,
        Err(refusal) => return Ok(Err(refusal)),
    };
    let mut counts = Counts {
        listed: records.len(),
        ..Counts::default()
    };
    let mut awaited: BTreeSet<u16> = records.keys().copied().collect();
    while counts.tables < TABLE_LIMIT {
        let Some(Told { axis, verdict }) = table(&records, &mut stream)? else {
            break;
        };
        awaited.remove(&axis);
        counts.tables += 1;
        match verdict {
            Verdict::Equal => counts.equal += 1,
            Verdict::Unequal => counts.unequal += 1,
            Verdict::Unlisted => counts.unlisted += 1,
        }
    }
    counts.untold = awaited.len();
    Ok(Ok(counts))
}

/// A record and its axis; none if there is no such variant or a byte behind
/// the digest is not zero.
fn record(bytes: &[u8]) -> Option<(u16, Record)> {
    let axis = u16::from_be_bytes([bytes[0], bytes[1]]);
    let variant = variant(bytes[2].into())?;
    let (digest, filler) = bytes[3..].split_at(variant.digest_bytes());
    let record = Record {
        variant,
        digest: digest.to_vec(),
    };
    filler
        .iter()
        .all(|&byte| byte == 0)
        .then_some((axis, record))
}

/// The next table of a stream, unless the stream ends before it does.
fn table(records: &BTreeMap<u16, Record>, stream: &mut impl Read) -> io::Result<Option<Told>> {
    let mut header = Vec::new();
    stream.take(6).read_to_end(&mut header)?;
    let Ok([a, b, length @ ..]) = <[u8; 6]>::try_from(header) else {
        return Ok(None);
    };
    let axis = u16::from_be_bytes([a, b]);
    let bytes = u64::from(u32::from_be_bytes(length));
    let mut contents = stream.take(bytes);
    let verdict = match records.get(&axis) {
        None => Verdict::Unlisted,
        Some(_) if bytes > MESSAGE_LIMIT as u64 => Verdict::Unequal,
        Some(record) if digest(record.variant, &mut contents)? == record.digest => Verdict::Equal,
        Some(_) => Verdict::Unequal,
    };
    // What was not hashed is passed over.
    io::copy(&mut contents, &mut io::sink())?;
    let whole = contents.limit() == 0;
    Ok(whole.then_some(Told { axis, verdict }))
}

/// The digest of all that a reader gives.
fn digest(variant: &Variant, contents: &mut impl Read) -> io::Result<Vec<u8>> {
    let (mut status, mut running) = start(variant.number);
    let mut piece = [0; PIECE_BYTES];
    loop {
        assert_eq!(status, DONE, "a known variant and a short table");
        let bytes = match contents.read(&mut piece) {
            Err(error) if error.kind() == ErrorKind::Interrupted => continue,
            read => read?,
        };
        if bytes == 0 {
            break;
        }
        (status, running) = running.update(&piece[..bytes]);
    }
    let mut digest = vec![0; variant.digest_bytes()];
    assert_eq!(running.finish().1.read(false, &mut digest), DONE);
    Ok(digest)
}
