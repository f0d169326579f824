//! The log of calls: its bytes taken apart. A call that is cut, unknown or too long is `None`.

/// The version that is taken.
const VERSION: u16 = 3;
/// The most that a count or an area's length may be.
const MOST: usize = 1024;
/// How many places a channel's array has.
pub const ROOM: usize = 300;

/// One call of the log.
pub enum Call {
    ClearAnalysis(u8),
    Analyse { input: Vec<i16>, lines: usize, energies: usize, peaks: usize },
    ClearSynthesis(u8),
    Synthesise { lines: Vec<f32>, samples: usize },
    Fft { size: usize, inverse: bool, re: Vec<f32>, im: Vec<f32>, re_out: usize, im_out: usize },
    Dct { length: usize, values: Vec<f32> },
    Loudest { config: u8, energies: Vec<f32> },
    Show,
    SetAnalysis(u8, Vec<i16>),
    SetSynthesis(u8, Vec<f32>),
    Transform { input: Vec<i16>, lines: usize },
    Measure { config: u8, lines: Vec<f32>, energies: usize, peaks: usize },
    NearNyquist { config: u8, energies: Vec<f32> },
}

/// What is left of the log.
pub struct Log<'a> {
    rest: &'a [u8],
}

impl<'a> Log<'a> {
    /// The calls after the header, or the refusal's number.
    pub fn open(bytes: &'a [u8]) -> Result<Self, u8> {
        if bytes.len() < 5 {
            return Err(8);
        }
        if &bytes[..3] != b"LMC" {
            return Err(9);
        }
        if u16::from_le_bytes([bytes[3], bytes[4]]) != VERSION {
            return Err(10);
        }
        Ok(Log { rest: &bytes[5..] })
    }

    pub fn is_done(&self) -> bool {
        self.rest.is_empty()
    }

    fn byte(&mut self) -> Option<u8> {
        let (&first, rest) = self.rest.split_first()?;
        self.rest = rest;
        Some(first)
    }

    fn short(&mut self) -> Option<u16> {
        Some(u16::from_le_bytes([self.byte()?, self.byte()?]))
    }

    fn count(&mut self, most: usize) -> Option<usize> {
        let n = self.short()? as usize;
        (n <= most).then_some(n)
    }

    fn samples(&mut self, most: usize) -> Option<Vec<i16>> {
        let n = self.count(most)?;
        (0..n).map(|_| self.short().map(|s| s as i16)).collect()
    }

    fn floats(&mut self, most: usize) -> Option<Vec<f32>> {
        let n = self.count(most)?;
        (0..n).map(|_| self.float()).collect()
    }

    fn float(&mut self) -> Option<f32> {
        let (low, high) = (self.short()? as u32, self.short()? as u32);
        Some(f32::from_bits(low | high << 16))
    }

    fn flag(&mut self) -> Option<bool> {
        let b = self.byte()?;
        (b <= 1).then_some(b == 1)
    }

    /// The next call with its kind.
    pub fn call(&mut self) -> Option<(u8, Call)> {
        let kind = self.byte()?;
        let call = match kind {
            1 => Call::ClearAnalysis(self.byte()?),
            2 => Call::Analyse { input: self.samples(MOST)?, lines: self.count(MOST)?, energies: self.count(MOST)?, peaks: self.count(MOST)? },
            3 => Call::ClearSynthesis(self.byte()?),
            4 => Call::Synthesise { lines: self.floats(MOST)?, samples: self.count(MOST)? },
            5 => Call::Fft {
                size: self.short()? as usize,
                inverse: self.flag()?,
                re: self.floats(MOST)?,
                im: self.floats(MOST)?,
                re_out: self.count(MOST)?,
                im_out: self.count(MOST)?,
            },
            6 => Call::Dct { length: self.short()? as usize, values: self.floats(MOST)? },
            7 => Call::Loudest { config: self.byte()?, energies: self.floats(MOST)? },
            8 => Call::Show,
            9 => Call::SetAnalysis(self.byte()?, self.samples(ROOM)?),
            10 => Call::SetSynthesis(self.byte()?, self.floats(ROOM)?),
            11 => Call::Transform { input: self.samples(MOST)?, lines: self.count(MOST)? },
            12 => Call::Measure { config: self.byte()?, lines: self.floats(MOST)?, energies: self.count(MOST)?, peaks: self.count(MOST)? },
            14 => Call::NearNyquist { config: self.byte()?, energies: self.floats(MOST)? },
            _ => return None,
        };
        Some((kind, call))
    }
}
