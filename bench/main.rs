//! Times the library's nim product beside the same method in plain Rust.

mod plain;

use std::hint::black_box;
use std::time::Instant;

const COMPARED: usize = 1_000_000;
const PAIRS: usize = 4096;
const PASSES: usize = 16;
const ROUNDS: usize = 25;

type Product = extern "C" fn(u32, u32) -> u32;

unsafe extern "C" {
    safe fn nimber_product(a: u32, b: u32) -> u32;
}

#[inline(never)]
extern "C" fn plain_product(a: u32, b: u32) -> u32 {
    plain::product(a, b)
}

#[derive(Clone, Copy)]
enum Class {
    Below16,
    Below256,
    Below65536,
    From65536,
}

impl Class {
    const ALL: [Class; 4] = [Class::Below16, Class::Below256, Class::Below65536, Class::From65536];

    fn title(self) -> &'static str {
        match self {
            Class::Below16 => "two numbers below 16",
            Class::Below256 => "two numbers below 256",
            Class::Below65536 => "two numbers below 65,536",
            Class::From65536 => "two numbers from 65,536 up",
        }
    }
}

/// SplitMix64.
struct Generator(u64);

impl Generator {
    fn bits(&mut self) -> u64 {
        self.0 = self.0.wrapping_add(0x9e37_79b9_7f4a_7c15);
        let z = (self.0 ^ (self.0 >> 30)).wrapping_mul(0xbf58_476d_1ce4_e5b9);
        let z = (z ^ (z >> 27)).wrapping_mul(0x94d0_49bb_1331_11eb);
        z ^ (z >> 31)
    }

    fn number(&mut self, class: Class) -> u32 {
        let x = (self.bits() >> 32) as u32;
        match class {
            Class::Below16 => x % 16,
            Class::Below256 => x % 256,
            Class::Below65536 => x % 65_536,
            Class::From65536 => x.max(65_536),
        }
    }
}

/// Compares the two on pairs of each class with each.
fn compare(generator: &mut Generator) -> Result<(), String> {
    for i in 0..COMPARED {
        let a = generator.number(Class::ALL[i % 4]);
        let b = generator.number(Class::ALL[i / 4 % 4]);
        let ours = nimber_product(a, b);
        let plain = plain_product(a, b);
        if ours != plain {
            return Err(format!("{a} ⊗ {b}: ours {ours}, plain {plain}"));
        }
    }
    Ok(())
}

/// Nanoseconds per product.
fn time(product: Product, pairs: &[(u32, u32)]) -> f64 {
    let start = Instant::now();
    let mut all = 0;
    for _ in 0..PASSES {
        for &(a, b) in black_box(pairs) {
            all ^= product(a, b);
        }
    }
    black_box(all);
    start.elapsed().as_nanos() as f64 / (PASSES * pairs.len()) as f64
}

/// The least of several rounds in turn, of ours and of the plain one.
fn least(pairs: &[(u32, u32)]) -> (f64, f64) {
    // Both are called by a pointer that the compiler does not see through.
    let ours = black_box(nimber_product as Product);
    let plain = black_box(plain_product as Product);
    let mut least = (f64::INFINITY, f64::INFINITY);
    for _ in 0..ROUNDS {
        least.0 = least.0.min(time(ours, pairs));
        least.1 = least.1.min(time(plain, pairs));
    }
    least
}

fn main() -> Result<(), String> {
    let mut generator = Generator(1);
    compare(&mut generator)?;
    println!("{COMPARED} pairs compared, no difference");
    println!("nanoseconds per product, the least of {ROUNDS} rounds:");
    println!("{:<28}{:>8}{:>8}{:>12}", "", "ours", "plain", "ours/plain");
    for class in Class::ALL {
        let pairs: Vec<(u32, u32)> = (0..PAIRS)
            .map(|_| (generator.number(class), generator.number(class)))
            .collect();
        let (ours, plain) = least(&pairs);
        let title = class.title();
        println!("{title:<28}{ours:>8.1}{plain:>8.1}{:>12.2}", ours / plain);
    }
    Ok(())
}
