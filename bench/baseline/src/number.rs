//! Numbers of one to four groups of seven bits, lowest group first, and refusals.

#[derive(Clone, Copy, Debug, PartialEq, Eq)]
pub struct Refusal {
    pub number: usize,
    pub place: usize,
}

pub fn refused<T>(number: usize, place: usize) -> Result<T, Refusal> {
    Err(Refusal { number, place })
}

/// Bytes and the place of the next number in them.
pub struct Reader<'a> {
    pub bytes: &'a [u8],
    pub at: usize,
}

impl<'a> Reader<'a> {
    pub fn new(bytes: &'a [u8]) -> Self {
        Reader { bytes, at: 0 }
    }

    #[inline]
    pub fn number(&mut self) -> Result<usize, Refusal> {
        let start = self.at;
        let mut value = 0;
        for group in 0..4 {
            let Some(&byte) = self.bytes.get(start + group) else {
                return refused(1, self.bytes.len());
            };
            value |= usize::from(byte & 127) << (7 * group);
            if byte < 128 {
                self.at = start + group + 1;
                return Ok(value);
            }
        }
        refused(2, start)
    }

    #[inline]
    pub fn within(&mut self, least: usize, most: usize) -> Result<usize, Refusal> {
        let start = self.at;
        let value = self.number()?;
        if value < least || value > most { refused(4, start) } else { Ok(value) }
    }

    /// The next `size` bytes.
    pub fn part(&mut self, size: usize) -> Result<&'a [u8], Refusal> {
        let rest = &self.bytes[self.at..];
        if rest.len() < size {
            return refused(1, self.bytes.len());
        }
        self.at += size;
        Ok(&rest[..size])
    }

    /// Refuses bytes that are left.
    pub fn end(&self) -> Result<(), Refusal> {
        if self.at < self.bytes.len() { refused(5, self.at) } else { Ok(()) }
    }

    /// The file's kind, which is one of these.
    pub fn kind(&mut self, kinds: &[usize]) -> Result<usize, Refusal> {
        let kind = self.number()?;
        if kinds.contains(&kind) { Ok(kind) } else { refused(3, 0) }
    }
}

pub fn push_number(out: &mut Vec<u8>, mut value: usize) {
    while value >= 128 {
        out.push(value as u8 | 128);
        value >>= 7;
    }
    out.push(value as u8);
}

#[cfg(test)]
mod tests {
    use super::*;

    #[test]
    fn numbers_at_their_edges_are_read_as_written() {
        for (value, form) in [
            (0, &[0][..]),
            (127, &[127]),
            (128, &[128, 1]),
            (300, &[172, 2]),
            (16_384, &[128, 128, 1]),
            (268_435_455, &[255, 255, 255, 127]),
        ] {
            let mut out = Vec::new();
            push_number(&mut out, value);
            assert_eq!(out, form);
            assert_eq!(Reader::new(form).number(), Ok(value));
        }
    }

    #[test]
    fn padded_forms_are_read() {
        for (value, form) in [
            (0, &[128, 0][..]),
            (127, &[255, 0]),
            (300, &[172, 130, 0]),
            (2_097_151, &[255, 255, 255, 0]),
        ] {
            let mut reader = Reader::new(form);
            assert_eq!(reader.number(), Ok(value));
            assert_eq!(reader.at, form.len());
        }
    }

    #[test]
    fn bad_forms_are_refused() {
        for (form, number, place) in [
            (&[][..], 1, 0),
            (&[255, 255], 1, 2),
            (&[128, 128, 128, 128], 2, 0),
            (&[128, 128, 128, 128, 0], 2, 0),
        ] {
            assert_eq!(Reader::new(form).number(), refused(number, place));
        }
    }
}
