//! The kernels as plain loops: prints a line for each, with its case, nanoseconds and a checksum.
//!
//! Each loop goes over memory in the order of the proved one that it stands beside.

use std::hint::black_box;
use std::ops::Range;
use std::time::Instant;

// As many calls of a kind as take some tenths of a millisecond, so that most runs are not interrupted.
const COPIES: u32 = 100;
const PASSES: u32 = 10;
const LENGTH: usize = 65_536;

fn main() {
    time_contraction("contraction_6", [6; 6], 4);
    time_contraction("contraction_7", [7; 6], 4);
    time_contraction("contraction_8", [8; 6], 2);
    time_contraction("contraction_10", [10; 6], 2);
    time_matrix("matrix_4", [4, 4, 4], 1000);
    time_matrix("matrix_20_400", [20, 20, 400], 2);
    time_outer();
    time_scalar();
    time_turned();
    time_permutation("permutation_2031", [2, 0, 3, 1], |_, value| value);
    time_permutation("permutation_3210", [3, 2, 1, 0], |_, value| value);
    time_permutation("permutation_1023", [1, 0, 2, 3], |_, value| value);
    time_permutation("added_2031", [2, 0, 3, 1], u64::wrapping_add);
    time_slice("slice", |_, value| value);
    time_slice("slice_added", u64::wrapping_add);
    time_insertion("insertion", |_, value| value);
    time_insertion("insertion_added", u64::wrapping_add);
    time_elements();
}

fn numbers(count: usize, seed: u64) -> Vec<u64> {
    let mut next = seed;
    let mut step = || {
        next = next
            .wrapping_mul(6364136223846793005)
            .wrapping_add(1442695040888963407);
        next
    };
    (0..count).map(|_| step()).collect()
}

fn checksum(block: &[u64]) -> u64 {
    block
        .iter()
        .fold(0, |sum, number| sum.wrapping_mul(31).wrapping_add(*number))
}

fn time(case: &str, name: &str, calls: u32, to: &mut [u64], mut call: impl FnMut(&mut [u64])) {
    let start = Instant::now();
    for _ in 0..calls {
        call(black_box(&mut *to));
    }
    let took = start.elapsed() / calls;
    println!("{case} {name} {} {}", took.as_nanos(), checksum(to));
}

fn time_contraction(case: &str, dims: [usize; 6], calls: u32) {
    let [i, j, k, l, m, n] = dims;
    let a = numbers(i * j * k * l, 1);
    let b = numbers(k * l * m * n, 2);
    let mut to = numbers(i * j * m * n, 3);
    time(case, "triple_loop", calls, &mut to, |to| {
        triple(&a, &b, to, i * j, m * n, k * l)
    });
    let mut to = numbers(i * j * m * n, 3);
    time(case, "six_loops", calls, &mut to, |to| {
        six(&a, &b, to, dims)
    });
}

fn time_matrix(case: &str, dims: [usize; 3], calls: u32) {
    let [i, m, k] = dims;
    let a = numbers(i * k, 1);
    let b = numbers(k * m, 2);
    let mut to = numbers(i * m, 3);
    time(case, "triple_loop", calls, &mut to, |to| {
        triple(&a, &b, to, black_box(i), black_box(m), black_box(k))
    });
}

fn time_outer() {
    let a = numbers(343, 1);
    let b = numbers(343, 2);
    let mut to = numbers(117_649, 3);
    time("outer_7", "two_loops", 2, &mut to, |to| outer(&a, &b, to));
}

#[inline(never)]
fn outer(a: &[u64], b: &[u64], to: &mut [u64]) {
    for (row, left) in to.chunks_exact_mut(b.len()).zip(a) {
        for (number, right) in row.iter_mut().zip(b) {
            *number = number.wrapping_add(left.wrapping_mul(*right));
        }
    }
}

fn time_scalar() {
    let a = numbers(46_656, 1);
    let b = numbers(46_656, 2);
    let mut to = numbers(1, 3);
    time("scalar_6", "one_loop", 4, &mut to, |to| {
        to[0] = to[0].wrapping_add(dot(black_box(&a), black_box(&b)))
    });
}

fn time_turned() {
    let a = numbers(4096, 1);
    let b = numbers(4096, 2);
    let mut to = numbers(4096, 3);
    time("turned_8", "triple_loop", 2, &mut to, |to| {
        turned(&a, &b, to, black_box(64))
    });
}

// The shared axis is the slowest of the first matrix, and the fastest of the second.
#[inline(never)]
fn turned(a: &[u64], b: &[u64], to: &mut [u64], size: usize) {
    for i in 0..size {
        for j in 0..size {
            let mut sum = 0u64;
            for k in 0..size {
                sum = sum.wrapping_add(a[k * size + i].wrapping_mul(b[j * size + k]));
            }
            let number = &mut to[i * size + j];
            *number = number.wrapping_add(sum);
        }
    }
}

// Both free pairs and the shared pair as one axis each, which only a matrix allows.
#[inline(never)]
fn triple(a: &[u64], b: &[u64], to: &mut [u64], rows: usize, columns: usize, shared: usize) {
    for i in 0..rows {
        for j in 0..columns {
            let mut sum = 0u64;
            for k in 0..shared {
                sum = sum.wrapping_add(a[i * shared + k].wrapping_mul(b[k * columns + j]));
            }
            let number = &mut to[i * columns + j];
            *number = number.wrapping_add(sum);
        }
    }
}

#[inline(never)]
fn six(a: &[u64], b: &[u64], to: &mut [u64], dims: [usize; 6]) {
    let [ni, nj, nk, nl, nm, nn] = dims;
    for i in 0..ni {
        for j in 0..nj {
            for m in 0..nm {
                for n in 0..nn {
                    let mut sum = 0u64;
                    for k in 0..nk {
                        for l in 0..nl {
                            let left = a[((i * nj + j) * nk + k) * nl + l];
                            let right = b[((k * nl + l) * nm + m) * nn + n];
                            sum = sum.wrapping_add(left.wrapping_mul(right));
                        }
                    }
                    let number = &mut to[((i * nj + j) * nm + m) * nn + n];
                    *number = number.wrapping_add(sum);
                }
            }
        }
    }
}

fn time_permutation(case: &str, order: [usize; 4], combine: impl Fn(u64, u64) -> u64) {
    let dims = [7, 8, 9, 10];
    let from = numbers(5040, 1);
    let mut to = numbers(5040, 2);
    time(case, "loops", COPIES, &mut to, |to| {
        permute(&from, black_box(&dims), black_box(&order), to, &combine);
    });
}

fn strides(dims: &[usize; 4]) -> [usize; 4] {
    [dims[1] * dims[2] * dims[3], dims[2] * dims[3], dims[3], 1]
}

#[inline(never)]
fn permute(
    from: &[u64],
    dims: &[usize; 4],
    order: &[usize; 4],
    to: &mut [u64],
    combine: impl Fn(u64, u64) -> u64,
) {
    let strides = strides(dims);
    let len = order.map(|axis| dims[axis]);
    let step = order.map(|axis| strides[axis]);
    let mut place = 0;
    for w in 0..len[0] {
        for x in 0..len[1] {
            for y in 0..len[2] {
                let base = w * step[0] + x * step[1] + y * step[2];
                for (z, number) in to[place..place + len[3]].iter_mut().enumerate() {
                    *number = combine(*number, from[base + z * step[3]]);
                }
                place += len[3];
            }
        }
    }
}

fn time_slice(case: &str, combine: impl Fn(u64, u64) -> u64) {
    let (dims, at, size) = ([10; 4], [1, 2, 0, 1], [6, 7, 8, 9]);
    let block = numbers(10_000, 1);
    let mut to = numbers(3024, 3);
    time(case, "loops", COPIES, &mut to, |to| {
        slice(
            &block,
            black_box(&dims),
            black_box(&at),
            black_box(&size),
            to,
            &combine,
        );
    });
}

fn time_insertion(case: &str, combine: impl Fn(u64, u64) -> u64) {
    let (dims, at, size) = ([10; 4], [1, 2, 0, 1], [6, 7, 8, 9]);
    let part = numbers(3024, 2);
    let mut to = numbers(10_000, 3);
    time(case, "loops", COPIES, &mut to, |to| {
        insert(
            &part,
            black_box(&size),
            to,
            black_box(&dims),
            black_box(&at),
            &combine,
        );
    });
}

// Where each row of a part lies in the block, and where in the part.
#[inline(always)]
fn each_row(
    dims: &[usize; 4],
    at: &[usize; 4],
    size: &[usize; 4],
    mut row: impl FnMut(Range<usize>, Range<usize>),
) {
    let strides = strides(dims);
    let mut place = 0;
    for w in 0..size[0] {
        for x in 0..size[1] {
            for y in 0..size[2] {
                let base = (at[0] + w) * strides[0] + (at[1] + x) * strides[1];
                let base = base + (at[2] + y) * strides[2] + at[3];
                row(base..base + size[3], place..place + size[3]);
                place += size[3];
            }
        }
    }
}

#[inline(always)]
fn meet(to: &mut [u64], from: &[u64], combine: impl Fn(u64, u64) -> u64) {
    for (number, value) in to.iter_mut().zip(from) {
        *number = combine(*number, *value);
    }
}

#[inline(never)]
fn slice(
    from: &[u64],
    dims: &[usize; 4],
    at: &[usize; 4],
    size: &[usize; 4],
    to: &mut [u64],
    combine: impl Fn(u64, u64) -> u64,
) {
    each_row(dims, at, size, |in_block, in_part| {
        meet(&mut to[in_part], &from[in_block], &combine);
    });
}

#[inline(never)]
fn insert(
    from: &[u64],
    size: &[usize; 4],
    to: &mut [u64],
    dims: &[usize; 4],
    at: &[usize; 4],
    combine: impl Fn(u64, u64) -> u64,
) {
    each_row(dims, at, size, |in_block, in_part| {
        meet(&mut to[in_block], &from[in_part], &combine);
    });
}

fn time_elements() {
    let from = numbers(LENGTH, 1);
    let mut to = numbers(LENGTH, 2);
    time("add", "loop", PASSES, &mut to, |to| add(to, &from));
    time("dot", "loop", PASSES, &mut to, |to| to[0] = dot(to, &from));
    time("greatest", "loop", PASSES, &mut to, |to| {
        greatest(to, &from)
    });
    let places = places();
    time("gather", "loop", PASSES, &mut to, |to| {
        gather(&from, &places, to)
    });
}

#[inline(never)]
fn add(to: &mut [u64], from: &[u64]) {
    for (number, value) in to.iter_mut().zip(from) {
        *number = number.wrapping_add(*value);
    }
}

#[inline(never)]
fn dot(a: &[u64], b: &[u64]) -> u64 {
    a.iter()
        .zip(b)
        .fold(0, |sum, (x, y)| sum.wrapping_add(x.wrapping_mul(*y)))
}

#[inline(never)]
fn greatest(to: &mut [u64], from: &[u64]) {
    for (number, value) in to.iter_mut().zip(from) {
        *number = (*number).max(*value);
    }
}

fn places() -> Vec<u32> {
    let mut next = 1u16;
    let mut step = || {
        next = next.wrapping_mul(25_173).wrapping_add(13_849);
        u32::from(next)
    };
    (0..LENGTH).map(|_| step()).collect()
}

#[inline(never)]
fn gather(from: &[u64], places: &[u32], to: &mut [u64]) {
    for (number, place) in to.iter_mut().zip(places) {
        *number = from[*place as usize];
    }
}
