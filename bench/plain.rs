//! The nim product by levels, in plain Rust.

/// a ⊗ b at 16 a + b, for numbers below 16.
static PRODUCTS: [u8; 256] = products();

/// By the smallest-missing rule.
const fn products() -> [u8; 256] {
    let mut table = [0; 256];
    let mut i = 0;
    while i < 256 {
        table[i] = smallest_missing(&table, i / 16, i % 16);
        i += 1;
    }
    table
}

/// The smallest number that is none of (a' ⊗ b) ^ (a ⊗ b') ^ (a' ⊗ b') with a' < a and b' < b.
const fn smallest_missing(table: &[u8; 256], a: usize, b: usize) -> u8 {
    let mut excluded = 0u16;
    let mut i = 0;
    while i < a * b {
        let (x, y) = (i / b, i % b);
        excluded |= 1 << (table[16 * x + b] ^ table[16 * a + y] ^ table[16 * x + y]);
        i += 1;
    }
    excluded.trailing_ones() as u8
}

pub fn product(a: u32, b: u32) -> u32 {
    product_of(32, a, b)
}

/// The product of numbers of `bits` bits. With F = 2^(bits / 2), a = a1 F + a0 and b = b1 F + b0:
/// F ⊗ F = F + F / 2.
fn product_of(bits: u32, a: u32, b: u32) -> u32 {
    if bits == 4 {
        // The mask spares the bounds check, which would cost half as much again.
        return u32::from(PRODUCTS[((16 * a + b) & 255) as usize]);
    }
    let half = bits / 2;
    let mask = (1 << half) - 1;
    let (a1, a0) = (a >> half, a & mask);
    let (b1, b0) = (b >> half, b & mask);
    let low = product_of(half, a0, b0);
    let high = product_of(half, a1, b1);
    let cross = product_of(half, a1 ^ a0, b1 ^ b0);
    let folded = product_of(half, high, 1 << (half - 1));
    ((cross ^ low) << half) | (low ^ folded)
}
