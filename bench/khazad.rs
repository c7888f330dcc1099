//! Khazad by eight tables in plain Rust, written for this comparison: no contract, no proof.

const P: [u8; 16] = [3, 15, 14, 0, 5, 4, 11, 12, 13, 10, 9, 6, 7, 8, 2, 1];
const Q: [u8; 16] = [9, 14, 5, 6, 10, 2, 3, 12, 15, 0, 4, 13, 7, 11, 1, 8];
const ROW: [u8; 8] = [0x01, 0x03, 0x04, 0x05, 0x06, 0x08, 0x0B, 0x07];

const fn exchanged(upper: u8, lower: u8) -> (u8, u8) {
    (upper & 12 | lower >> 2, (upper & 3) << 2 | lower & 3)
}

const fn s(x: u8) -> u8 {
    let (u, l) = exchanged(P[(x >> 4) as usize], Q[(x & 15) as usize]);
    let (u, l) = exchanged(Q[u as usize], P[l as usize]);
    P[u as usize] << 4 | Q[l as usize]
}

const fn product(a: u8, x: u8) -> u8 {
    let (mut bits, mut power, mut sum) = (a, x, 0);
    while bits != 0 {
        if bits & 1 == 1 {
            sum ^= power;
        }
        bits >>= 1;
        power = (power << 1) ^ ((power >> 7) * 0x1D);
    }
    sum
}

const fn tables() -> [[u64; 256]; 8] {
    let mut tables = [[0; 256]; 8];
    let mut k = 0;
    while k < 8 {
        let mut x = 0;
        while x < 256 {
            let mut j = 0;
            while j < 8 {
                tables[k][x] = tables[k][x] << 8 | product(ROW[k ^ j], s(x as u8)) as u64;
                j += 1;
            }
            x += 1;
        }
        k += 1;
    }
    tables
}

static TABLES: [[u64; 256]; 8] = tables();

fn theta_gamma(block: u64) -> u64 {
    let a = block.to_be_bytes();
    TABLES[0][a[0] as usize]
        ^ TABLES[1][a[1] as usize]
        ^ TABLES[2][a[2] as usize]
        ^ TABLES[3][a[3] as usize]
        ^ TABLES[4][a[4] as usize]
        ^ TABLES[5][a[5] as usize]
        ^ TABLES[6][a[6] as usize]
        ^ TABLES[7][a[7] as usize]
}

fn gamma(block: u64) -> u64 {
    let a = block.to_be_bytes();
    (TABLES[0][a[0] as usize] & 0xFF00_0000_0000_0000)
        ^ (TABLES[1][a[1] as usize] & 0x00FF_0000_0000_0000)
        ^ (TABLES[2][a[2] as usize] & 0x0000_FF00_0000_0000)
        ^ (TABLES[3][a[3] as usize] & 0x0000_00FF_0000_0000)
        ^ (TABLES[4][a[4] as usize] & 0x0000_0000_FF00_0000)
        ^ (TABLES[5][a[5] as usize] & 0x0000_0000_00FF_0000)
        ^ (TABLES[6][a[6] as usize] & 0x0000_0000_0000_FF00)
        ^ (TABLES[7][a[7] as usize] & 0x0000_0000_0000_00FF)
}

pub struct Khazad {
    keys: [u64; 9],
}

impl Khazad {
    pub fn new(first: u64, second: u64) -> Khazad {
        let (mut before, mut last) = (first, second);
        let mut keys = [0; 9];
        for (r, key) in keys.iter_mut().enumerate() {
            let constant = gamma(0x0001_0203_0405_0607 + r as u64 * 0x0808_0808_0808_0808);
            *key = constant ^ theta_gamma(last) ^ before;
            (before, last) = (last, *key);
        }
        Khazad { keys }
    }

    fn encipher(&self, block: u64) -> u64 {
        let mut state = block ^ self.keys[0];
        for key in &self.keys[1..8] {
            state = theta_gamma(state) ^ key;
        }
        gamma(state) ^ self.keys[8]
    }

    pub fn ecb(&self, text: &mut [u8]) {
        for bytes in text.chunks_exact_mut(8) {
            let block = u64::from_be_bytes((&*bytes).try_into().unwrap());
            bytes.copy_from_slice(&self.encipher(block).to_be_bytes());
        }
    }

    pub fn cbc(&self, start: u64, text: &mut [u8]) {
        let mut chain = start;
        for bytes in text.chunks_exact_mut(8) {
            let block = u64::from_be_bytes((&*bytes).try_into().unwrap());
            chain = self.encipher(block ^ chain);
            bytes.copy_from_slice(&chain.to_be_bytes());
        }
    }
}
