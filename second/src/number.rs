//! Numbers of a log: groups of seven bits, lowest group first.

/// Why bytes are no number.
#[derive(Clone, Copy, Debug, PartialEq, Eq)]
pub enum NumberFault {
    /// The log ends inside the number.
    CutOff,
    /// A shorter form of the same number exists.
    LongForm,
    /// 2^32 or more, or longer than 5 bytes.
    TooLarge,
}

/// Reads the number at the start of `bytes` and answers it with its length.
pub fn read_number(bytes: &[u8]) -> Result<(u32, usize), NumberFault> {
    let mut value = 0;
    for (index, &byte) in bytes.iter().enumerate() {
        if index == 4 && byte > 15 {
            return Err(NumberFault::TooLarge);
        }
        value |= u32::from(byte & 0x7F) << (7 * index);
        if byte < 0x80 {
            let long_form = byte == 0 && index > 0;
            return if long_form {
                Err(NumberFault::LongForm)
            } else {
                Ok((value, index + 1))
            };
        }
    }
    Err(NumberFault::CutOff)
}

/// Appends a number in its shortest form.
pub fn write_number(out: &mut Vec<u8>, mut value: u32) {
    while value >= 0x80 {
        out.push(value as u8 | 0x80);
        value >>= 7;
    }
    out.push(value as u8);
}
