//! One number for many: short to store, and computed in 64 bits without overflow, whatever they are.

const PRIME: u64 = 4_294_967_291;

pub fn digest(numbers: impl Iterator<Item = u64>) -> u64 {
    numbers.fold(0, |sum, number| (sum * 257 + number % PRIME + 1) % PRIME)
}
