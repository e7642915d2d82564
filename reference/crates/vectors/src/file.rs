//! The two files: the vectors in binary, and the index.

use crate::call::{Answer, Call, Vector};
use answers::Origin;
use decode::{number, Measures};
use sheet::Sheet;
use std::fmt;

/// The name of the binary file.
pub const BINARY: &str = "vectors.bin";
/// The name of the index.
pub const INDEX: &str = "index.tsv";

/// The bytes of the binary file.
#[must_use]
pub fn bytes(vectors: &[Vector]) -> Vec<u8> {
    let mut file = Vec::new();
    put_length(&mut file, vectors.len());
    for vector in vectors {
        file.push(vector.call as u8);
        put_run(&mut file, &vector.sheet.text);
        put_run(&mut file, &vector.sheet.record);
        file.extend(vector.tab_size.to_le_bytes());
        file.extend(vector.token.to_le_bytes());
        put_length(&mut file, vector.output);
        put_answer(&mut file, &vector.answer);
    }
    file
}

fn put_answer(file: &mut Vec<u8>, answer: &Answer) {
    file.push(answer.number);
    file.extend(answer.place.to_le_bytes());
    let Measures { deepest, letters, units } = answer.measures;
    file.extend([u64::from(deepest), letters, units].map(u64::to_le_bytes).as_flattened());
    file.push(u8::from(answer.found.is_some()));
    file.extend(answer.found.unwrap_or(0).to_le_bytes());
    if answer.number == number::COMMENTS_LEFT {
        file.extend(answer.set.map(u64::to_le_bytes).as_flattened());
    }
    put_run(file, &answer.output);
}

fn put_length(file: &mut Vec<u8>, length: usize) {
    let length = u32::try_from(length).expect("a length is a u32");
    file.extend(length.to_le_bytes());
}

fn put_run(file: &mut Vec<u8>, bytes: &[u8]) {
    put_length(file, bytes.len());
    file.extend(bytes);
}

/// The index: a head, then a line for each vector.
#[must_use]
pub fn index(vectors: &[Vector]) -> String {
    let mut index = String::from("number\tname\tcall\torigin\tshows\n");
    for (number, vector) in vectors.iter().enumerate() {
        let origin = match vector.origin {
            Origin::Rust => "Rust",
            Origin::Decoder => "decoder",
            Origin::Arithmetic => "arithmetic",
        };
        let Vector { name, call, shows, .. } = vector;
        index.push_str(&format!("{number}\t{name}\t{}\t{origin}\t{shows}\n", call.name()));
    }
    index
}

/// What the binary file holds of a vector.
#[derive(Debug, Clone, PartialEq, Eq)]
pub struct Stored {
    /// The call.
    pub call: Call,
    /// The sheet.
    pub sheet: Sheet,
    /// The tab size.
    pub tab_size: u32,
    /// The token number.
    pub token: u64,
    /// The length of the output.
    pub output: usize,
    /// The answer.
    pub answer: Answer,
}

/// A file that isn't in the format: the offset at which it is left.
#[derive(Debug, Clone, Copy, PartialEq, Eq)]
pub struct FormatError(pub usize);

impl fmt::Display for FormatError {
    fn fmt(&self, f: &mut fmt::Formatter<'_>) -> fmt::Result {
        write!(f, "no vector file from byte {} on", self.0)
    }
}

impl std::error::Error for FormatError {}

/// Reads the binary file from front to back.
///
/// # Errors
///
/// If the file isn't in the format.
pub fn parse(file: &[u8]) -> Result<Vec<Stored>, FormatError> {
    let mut reader = Reader { file, at: 0 };
    let count = reader.u32()?;
    let vectors = (0..count).map(|_| reader.vector()).collect::<Result<_, _>>()?;
    if reader.at < file.len() {
        return Err(FormatError(reader.at));
    }
    Ok(vectors)
}

struct Reader<'a> {
    file: &'a [u8],
    at: usize,
}

impl Reader<'_> {
    fn take(&mut self, length: usize) -> Result<&[u8], FormatError> {
        let end = self.at.checked_add(length).ok_or(FormatError(self.at))?;
        let bytes = self.file.get(self.at..end).ok_or(FormatError(self.at))?;
        self.at = end;
        Ok(bytes)
    }

    fn array<const N: usize>(&mut self) -> Result<[u8; N], FormatError> {
        let mut array = [0; N];
        array.copy_from_slice(self.take(N)?);
        Ok(array)
    }

    fn u8(&mut self) -> Result<u8, FormatError> {
        Ok(self.array::<1>()?[0])
    }

    fn u32(&mut self) -> Result<u32, FormatError> {
        Ok(u32::from_le_bytes(self.array()?))
    }

    fn u64(&mut self) -> Result<u64, FormatError> {
        Ok(u64::from_le_bytes(self.array()?))
    }

    fn run(&mut self) -> Result<Vec<u8>, FormatError> {
        let length = self.u32()? as usize;
        Ok(self.take(length)?.to_vec())
    }

    fn vector(&mut self) -> Result<Stored, FormatError> {
        let start = self.at;
        let call = self.u8()?;
        let call = Call::ALL.get(usize::from(call)).copied().ok_or(FormatError(start))?;
        let sheet = Sheet { text: self.run()?, record: self.run()? };
        let (tab_size, token) = (self.u32()?, self.u64()?);
        let output = self.u32()? as usize;
        let answer = self.answer()?;
        Ok(Stored { call, sheet, tab_size, token, output, answer })
    }

    fn answer(&mut self) -> Result<Answer, FormatError> {
        let (number, place) = (self.u8()?, self.u32()?);
        let deepest = self.u64()?;
        let deepest = u32::try_from(deepest).map_err(|_| FormatError(self.at))?;
        let measures = Measures { deepest, letters: self.u64()?, units: self.u64()? };
        let (is_found, found) = (self.u8()?, self.u64()?);
        let found = (is_found == 1).then_some(found);
        let mut set = [0; 64];
        if number == number::COMMENTS_LEFT {
            for word in &mut set {
                *word = self.u64()?;
            }
        }
        Ok(Answer { number, place, measures, found, set, output: self.run()? })
    }
}
