//! Stored numbers.

use crate::Refusal;

/// The bytes left to be read.
pub struct Bytes<'a> {
    pub left: &'a [u8],
}

impl<'a> Bytes<'a> {
    pub fn new(bytes: &'a [u8]) -> Self {
        Bytes { left: bytes }
    }

    /// A stored number: complete, shortest and at most 4,294,967,295, or refusal 1.
    pub fn number(&mut self) -> Result<u32, Refusal> {
        let last = self.left.iter().position(|byte| byte & 0x80 == 0).ok_or(1u32)?;
        let (form, rest) = self.left.split_at(last + 1);
        if form.len() > 5 || (form.len() > 1 && form[last] == 0) {
            return Err(1);
        }
        let value = form.iter().rev().fold(0u64, |sum, byte| sum * 128 + u64::from(byte & 0x7F));
        let value = u32::try_from(value).map_err(|_| 1u32)?;
        self.left = rest;
        Ok(value)
    }

    /// A signed number.
    pub fn signed(&mut self) -> Result<i64, Refusal> {
        let stored = i64::from(self.number()?);
        Ok(if stored % 2 == 0 { stored / 2 } else { -(stored + 1) / 2 })
    }
}

/// Appends the shortest form of a number.
pub fn put_number(out: &mut Vec<u8>, mut value: u32) {
    while value >= 128 {
        out.push((value % 128) as u8 | 0x80);
        value /= 128;
    }
    out.push(value as u8);
}

/// Appends a signed number: 2n when n is 0 or more, else -2n - 1.
pub fn put_signed(out: &mut Vec<u8>, n: i64) {
    let stored = if n >= 0 { 2 * n } else { -2 * n - 1 };
    put_number(out, stored as u32);
}

#[cfg(test)]
mod tests {
    use super::*;

    #[test]
    fn forms() {
        for (value, form) in [
            (127u32, vec![0x7F]),
            (128, vec![0x80, 0x01]),
            (65_535, vec![0xFF, 0xFF, 0x03]),
            (16_777_216, vec![0x80, 0x80, 0x80, 0x08]),
        ] {
            let mut out = Vec::new();
            put_number(&mut out, value);
            assert_eq!(out, form);
            assert_eq!(Bytes::new(&form).number(), Ok(value));
        }
        assert_eq!(Bytes::new(&[0x80, 0x00]).number(), Err(1));
        assert_eq!(Bytes::new(&[0x80]).number(), Err(1));
        assert_eq!(Bytes::new(&[0xFF, 0xFF, 0xFF, 0xFF, 0x1F]).number(), Err(1));
        let mut out = Vec::new();
        put_signed(&mut out, -1);
        assert_eq!(out, [0x01]);
    }
}
