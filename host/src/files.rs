//! Files of the demo: a box's inputs, and its results. A deployment keeps its inputs elsewhere.
//!
//! A file is a header (16 bytes of kind, then n, i and l as 8 bytes each, low byte first, then 16 bytes that name the deal) and the lists one
//! after another, as long as the library says: delta, seed, pairs, masks, bits, alpha, beta; or the results.

use std::{
    fs::{self, File, OpenOptions},
    io::{self, BufReader, ErrorKind, Read, Write},
    os::unix::fs::OpenOptionsExt,
    path::Path,
};

use crate::{Inputs, Plan};

#[derive(Clone, Copy, Debug, PartialEq, Eq)]
pub enum Kind {
    Inputs,
    Results,
}

impl Kind {
    fn magic(self) -> &'static [u8; 16] {
        match self {
            Kind::Inputs => b"nuzsdike inputs\n",
            Kind::Results => b"nuzsdike result\n",
        }
    }
}

#[derive(Clone, Copy, Debug, PartialEq, Eq)]
pub struct Header {
    pub kind: Kind,
    pub n: usize,
    pub i: usize,
    pub l: usize,
    pub id: [u8; 16],
}

impl Header {
    pub fn write(&self, file: &mut impl Write) -> io::Result<()> {
        file.write_all(self.kind.magic())?;
        for number in [self.n, self.i, self.l] {
            file.write_all(&(number as u64).to_le_bytes())?;
        }
        file.write_all(&self.id)
    }

    fn read(file: &mut impl Read, kind: Kind) -> io::Result<Self> {
        if array(file)? != *kind.magic() {
            return Err(bad(format!("this is no file of {kind:?}")));
        }
        let mut number = || Ok::<_, io::Error>(u64::from_le_bytes(array(file)?) as usize);
        let (n, i, l) = (number()?, number()?, number()?);
        let header = Header { kind, n, i, l, id: array(file)? };
        if header.plan().work_len() == 0 || i >= n {
            return Err(bad(format!("no session has box {i} of {n} and {l} ANDs")));
        }
        Ok(header)
    }

    pub fn plan(&self) -> Plan {
        Plan::new(self.n, self.l)
    }
}

fn bad(why: String) -> io::Error {
    io::Error::new(ErrorKind::InvalidData, why)
}

fn array<const N: usize>(file: &mut impl Read) -> io::Result<[u8; N]> {
    let mut bytes = [0; N];
    file.read_exact(&mut bytes)?;
    Ok(bytes)
}

fn list(file: &mut impl Read, len: usize) -> io::Result<Vec<u8>> {
    let mut bytes = vec![0; len];
    file.read_exact(&mut bytes)?;
    Ok(bytes)
}

fn end(file: &mut impl Read) -> io::Result<()> {
    match file.read(&mut [0])? {
        0 => Ok(()),
        _ => Err(bad("bytes after the end".into())),
    }
}

pub fn read_inputs(file: &mut impl Read) -> io::Result<(Header, Inputs)> {
    let header = Header::read(file, Kind::Inputs)?;
    let plan = header.plan();
    let (delta, seed) = (array(file)?, array(file)?);
    let pairs = list(file, plan.pairs_len())?;
    let masks = list(file, plan.masks_len())?;
    let bits = list(file, plan.bits_len())?;
    let (alpha, beta) = (list(file, plan.shares_len())?, list(file, plan.shares_len())?);
    end(file)?;
    Ok((header, Inputs { delta, seed, pairs, bits, alpha, beta, masks }))
}

pub fn read_results(file: &mut impl Read) -> io::Result<(Header, Vec<u8>)> {
    let header = Header::read(file, Kind::Results)?;
    let results = list(file, header.plan().shares_len())?;
    end(file)?;
    Ok((header, results))
}

/// Writes results under another name first, so that a file of that name is always whole.
pub fn write_results(path: &Path, header: Header, results: &[u8]) -> io::Result<()> {
    let partial = path.with_extension("partial");
    let mut file = create(&partial)?;
    Header { kind: Kind::Results, ..header }.write(&mut file)?;
    file.write_all(results)?;
    file.sync_all()?;
    fs::rename(partial, path)
}

/// A new file that nobody else may read: shares are secret.
pub fn create(path: &Path) -> io::Result<File> {
    named(path, OpenOptions::new().write(true).create(true).truncate(true).mode(0o600).open(path))
}

/// Reads a file by one of the functions above; an error names it.
pub fn load<T>(path: &Path, read: impl FnOnce(&mut BufReader<File>) -> io::Result<T>) -> io::Result<T> {
    named(path, File::open(path).and_then(|file| read(&mut BufReader::with_capacity(1 << 20, file))))
}

fn named<T>(path: &Path, result: io::Result<T>) -> io::Result<T> {
    result.map_err(|error| io::Error::new(error.kind(), format!("{}: {error}", path.display())))
}
