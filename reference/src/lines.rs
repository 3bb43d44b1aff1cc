//! What a line of a script asks for, read word by word (REPLAY.md).

use crate::store::{Make, Store};
use crate::value::Value;

/// The first fault of a line.
pub enum Fault {
    UnknownWord,
    WrongCount,
    NotANumber,
    BeyondLimit,
    NotHex,
    Bounds,
}

impl Fault {
    pub fn reason(&self) -> &'static str {
        match self {
            Fault::UnknownWord => "unknown word",
            Fault::WrongCount => "wrong count of words",
            Fault::NotANumber => "not a number",
            Fault::BeyondLimit => "number beyond its limit",
            Fault::NotHex => "not bytes in hex",
            Fault::Bounds => "low must be below high, and high at most 65536",
        }
    }
}

/// What a line asks for.
pub enum Call {
    Image(Vec<u8>),
    Write(u32),
    Sensitive,
    Store(Store),
    Put(u32, Value),
    Drop(u32),
    Get(u32),
    Takes(u32),
    Begin,
    Memory(u32),
    Poke(u32, u32),
    Peek(u32),
    Digest,
    Step,
    Go(u32),
    Frames,
    Entries,
    Status,
}

/// The words of a line that are still to be read.
pub struct Words<'a> {
    rest: Vec<&'a [u8]>,
}

impl<'a> Words<'a> {
    pub fn of(line: &'a [u8]) -> Words<'a> {
        let words = line.split(|byte| *byte == b' ').filter(|word| !word.is_empty());
        Words { rest: words.collect() }
    }

    /// Whether the line has no words, or is a remark.
    pub fn are_passed_over(&self) -> bool {
        self.rest.first().is_none_or(|word| word.starts_with(b"#"))
    }

    fn next(&mut self) -> Result<&'a [u8], Fault> {
        if self.rest.is_empty() { Err(Fault::WrongCount) } else { Ok(self.rest.remove(0)) }
    }

    fn word(&mut self) -> Result<u32, Fault> {
        self.number(u32::MAX)
    }

    fn number(&mut self, limit: u32) -> Result<u32, Fault> {
        let word = self.next()?;
        if !word.iter().all(u8::is_ascii_digit) {
            return Err(Fault::NotANumber);
        }
        let mut number = 0u64;
        for digit in word {
            number = 10 * number + u64::from(digit - b'0');
            if number > u64::from(limit) {
                return Err(Fault::BeyondLimit);
            }
        }
        Ok(number as u32)
    }

    fn bytes(&mut self) -> Result<Vec<u8>, Fault> {
        let digit = |byte: u8| match byte {
            b'0'..=b'9' => Ok(byte - b'0'),
            b'a'..=b'f' => Ok(byte - b'a' + 10),
            _ => Err(Fault::NotHex),
        };
        let word = self.next()?;
        if word.len() % 2 != 0 {
            return Err(Fault::NotHex);
        }
        word.chunks(2).map(|pair| Ok(16 * digit(pair[0])? + digit(pair[1])?)).collect()
    }

    /// The call of the line, with no word left over.
    pub fn call(&mut self) -> Result<Call, Fault> {
        let call = match self.next()? {
            b"image" if self.rest.is_empty() => Call::Image(Vec::new()),
            b"image" => Call::Image(self.bytes()?),
            b"write" => Call::Write(self.number(65_536)?),
            b"sensitive" => Call::Sensitive,
            b"store" => Call::Store(self.store()?),
            b"put" => self.put()?,
            b"drop" => Call::Drop(self.word()?),
            b"get" => Call::Get(self.word()?),
            b"takes" => Call::Takes(self.word()?),
            b"begin" => Call::Begin,
            b"memory" => Call::Memory(self.number(65_537)?),
            b"poke" => Call::Poke(self.word()?, self.word()?),
            b"peek" => Call::Peek(self.word()?),
            b"digest" => Call::Digest,
            b"step" => Call::Step,
            b"go" => Call::Go(self.number(65_536)?),
            b"frames" => Call::Frames,
            b"entries" => Call::Entries,
            b"status" => Call::Status,
            _ => return Err(Fault::UnknownWord),
        };
        if self.rest.is_empty() { Ok(call) } else { Err(Fault::WrongCount) }
    }

    fn store(&mut self) -> Result<Store, Fault> {
        match self.next()? {
            b"window" => {
                let (base, len) = (self.word()?, self.word()?);
                let make = self.next()?;
                Ok(self.slots(make)?.behind_window(base, len))
            }
            make => self.slots(make),
        }
    }

    fn slots(&mut self, make: &[u8]) -> Result<Store, Fault> {
        let make = match make {
            b"array" => Make::Array,
            b"hash" => Make::Hash,
            _ => return Err(Fault::UnknownWord),
        };
        Ok(Store::new(make, self.number(70_000)?))
    }

    fn put(&mut self) -> Result<Call, Fault> {
        let address = self.word()?;
        let value = match self.next()? {
            b"code" => Value::Code(self.word()?),
            b"data" => {
                let (word, low, high) = (self.word()?, self.word()?, self.word()?);
                Value::data(word, low, high).ok_or(Fault::Bounds)?
            }
            _ => return Err(Fault::UnknownWord),
        };
        Ok(Call::Put(address, value))
    }
}
