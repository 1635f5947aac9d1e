//! Stored samples of the Rust's answers, as the program `vectors` replays them:
//! a family's number, three zero bytes, how many cases follow (u32), and the
//! family's records. Numbers are little-endian. A file is at most 64 KiB long,
//! which the program's buffer holds; what is longer goes on in a further file.

/// The families.
pub const CURVES: u8 = 1;
pub const SHEETS: u8 = 2;
pub const BOOKS: u8 = 3;
pub const UVS: u8 = 4;
pub const CORNERS: u8 = 5;

const LONGEST: usize = 65_536;
const HEAD: usize = 8;

/// A record and how many cases it holds.
#[derive(Default)]
pub struct Record {
    bytes: Vec<u8>,
    cases: u32,
}

impl Record {
    pub fn u8(&mut self, x: u8) {
        self.bytes.push(x);
    }

    pub fn u16(&mut self, x: u16) {
        self.bytes.extend(x.to_le_bytes());
    }

    pub fn u32(&mut self, x: u32) {
        self.bytes.extend(x.to_le_bytes());
    }

    pub fn f32(&mut self, x: f32) {
        self.u32(x.to_bits());
    }

    pub fn bytes(&mut self, bytes: &[u8]) {
        self.bytes.extend(bytes);
    }

    pub fn floats(&mut self, floats: &[f32]) {
        floats.iter().for_each(|&x| self.f32(x));
    }

    pub fn answers(&mut self, answers: &[u32]) {
        answers.iter().for_each(|&bits| self.u32(bits));
    }

    /// A case was written.
    pub fn case(&mut self) {
        self.cases += 1;
    }
}

/// The files of one family.
pub struct Files {
    family: u8,
    files: Vec<Record>,
}

impl Files {
    pub fn new(family: u8) -> Self {
        let files = Vec::new();
        Self { family, files }
    }

    pub fn put(&mut self, record: Record) {
        let room = LONGEST - HEAD - record.bytes.len();
        match self.files.last_mut() {
            Some(last) if last.bytes.len() <= room => {
                last.bytes.extend(record.bytes);
                last.cases += record.cases;
            }
            _ => self.files.push(record),
        }
    }

    /// Each file's bytes.
    pub fn finish(self) -> Vec<Vec<u8>> {
        let head = |cases: u32| [&[self.family, 0, 0, 0], &cases.to_le_bytes()[..]].concat();
        let files = self.files.iter();
        files
            .map(|file| [head(file.cases), file.bytes.clone()].concat())
            .collect()
    }
}
