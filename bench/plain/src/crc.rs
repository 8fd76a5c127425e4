//! CRC-32, a byte at a time by one table.

const fn table() -> [u32; 256] {
    let mut table = [0; 256];
    let mut i = 0;
    while i < 256 {
        let mut register = i as u32;
        let mut bit = 0;
        while bit < 8 {
            let carry = register & 1;
            register >>= 1;
            if carry == 1 {
                register ^= 0xEDB8_8320;
            }
            bit += 1;
        }
        table[i] = register;
        i += 1;
    }
    table
}

static TABLE: [u32; 256] = table();

pub struct Crc(u32);

impl Crc {
    pub fn new() -> Crc {
        Crc(!0)
    }

    pub fn update(&mut self, bytes: &[u8]) {
        self.0 = bytes.iter().fold(self.0, |register, byte| {
            TABLE[usize::from(register as u8 ^ byte)] ^ (register >> 8)
        });
    }

    pub fn finish(&self) -> u32 {
        !self.0
    }
}

pub fn crc32(bytes: &[u8]) -> u32 {
    let mut crc = Crc::new();
    crc.update(bytes);
    crc.finish()
}

#[cfg(test)]
mod tests {
    #[test]
    fn published_value() {
        assert_eq!(super::crc32(b"123456789"), 0xCBF4_3926);
    }
}
