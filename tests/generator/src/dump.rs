//! A dump as document 01 lays it out: what the ledger reads and the generator makes.

/// The lengths at which the Rust's reckoning overflows (docs/DIFFERENCES.md).
pub const OVERFLOWING: std::ops::Range<u64> = (1 << 61) - 3..1 << 61;

/// One generation of a dump.
#[derive(Clone, Debug, PartialEq, Eq)]
pub struct Listed {
    pub bucket: u64,
    pub newest: u64,
    pub fingerprints: Vec<u64>,
}

#[derive(Clone, Debug, Default, PartialEq, Eq)]
pub struct Dump {
    /// 0 for no floor, else one past it.
    pub floor: u64,
    pub classes: [Vec<Listed>; 3],
}

struct Reader<'a> {
    bytes: &'a [u8],
    at: usize,
}

impl Reader<'_> {
    fn word(&mut self) -> Option<u64> {
        let chunk = self.bytes.get(self.at..self.at.checked_add(8)?)?;
        self.at += 8;
        Some(u64::from_le_bytes(chunk.try_into().ok()?))
    }

    fn listed(&mut self) -> Option<Listed> {
        let (bucket, newest, length) = (self.word()?, self.word()?, self.word()?);
        if length > (self.bytes.len() - self.at) as u64 / 8 {
            return None;
        }
        let fingerprints = (0..length).map(|_| self.word()).collect::<Option<_>>()?;
        Some(Listed {
            bucket,
            newest,
            fingerprints,
        })
    }
}

/// The dump at the front of `bytes` and the bytes that it takes; none if it is cut short.
pub fn read(bytes: &[u8]) -> Option<(Dump, u64)> {
    let mut reader = Reader { bytes, at: 0 };
    let mut dump = Dump {
        floor: reader.word()?,
        ..Dump::default()
    };
    for class in &mut dump.classes {
        for _ in 0..reader.word()? {
            class.push(reader.listed()?);
        }
    }
    Some((dump, reader.at as u64))
}

impl Dump {
    /// Each fingerprint as it is held, with its class and bucket.
    pub fn listed(&self) -> impl Iterator<Item = (usize, u64, u64)> {
        let classes = self.classes.iter().enumerate();
        let listed = classes.flat_map(|(class, all)| all.iter().map(move |one| (class, one)));
        listed.flat_map(|(class, one)| {
            let fingerprints = one.fingerprints.iter();
            fingerprints.map(move |fingerprint| (class, one.bucket, (*fingerprint).max(1)))
        })
    }

    pub fn bytes(&self) -> Vec<u8> {
        let mut words = vec![self.floor];
        for class in &self.classes {
            words.push(class.len() as u64);
            for listed in class {
                words.extend([
                    listed.bucket,
                    listed.newest,
                    listed.fingerprints.len() as u64,
                ]);
                words.extend(&listed.fingerprints);
            }
        }
        words.iter().flat_map(|word| word.to_le_bytes()).collect()
    }
}
