//! Multiplications that wait for no other, as many as each contraction has: what the processor's one
//! 64-bit multiplier allows. To be built without vector instructions for loops and lists.

use std::hint::black_box;
use std::time::Instant;

fn main() {
    time("contraction_6", 46_656, 4);
    time("contraction_7", 117_649, 4);
    time("contraction_8", 262_144, 2);
    time("contraction_10", 1_000_000, 2);
    time("matrix_4", 64, 1000);
    time("matrix_20_400", 160_000, 2);
    time("outer_7", 117_649, 2);
    time("scalar_6", 46_656, 4);
    time("turned_8", 262_144, 2);
}

fn time(case: &str, count: usize, calls: u32) {
    let factors: Vec<u64> = (0..2048).map(|place| 2 * place + 3).collect();
    let start = Instant::now();
    for _ in 0..calls {
        for _ in 0..count / 2048 {
            black_box(multiply(black_box(&factors)));
        }
        black_box(multiply(black_box(&factors[..count % 2048])));
    }
    let took = start.elapsed() / calls;
    println!("{case} multiplications {} -", took.as_nanos());
}

// Eight products at a time; each factor is met once, so that none can be taken together with another.
#[inline(never)]
fn multiply(factors: &[u64]) -> u64 {
    let mut products = [1u64; 8];
    for part in factors.chunks_exact(8) {
        for (product, factor) in products.iter_mut().zip(part) {
            *product = product.wrapping_mul(*factor);
        }
    }
    products.iter().fold(0, |sum, product| sum ^ product)
}
