//! Dependent chains of add, mul and div in plain Rust, as a yardstick for `pv_num`.
//!
//!     rustc -O bench/lean/numbers.rs -o /tmp/numbers && /tmp/numbers mul 10000000
//!
//! Prints the last number, so that nothing of the chain can be left out.
#[allow(dead_code)]
mod num;
#[allow(dead_code)]
mod roots;
use num::{finite, Num};
use std::env::args;

fn number(mantissa: u64, exponent: i32) -> Num {
    finite(false, mantissa as u128, exponent + 512, false)
}

fn main() {
    let words: Vec<String> = args().collect();
    let steps: u64 = words[2].parse().unwrap();
    let (a, b) = (number(3, -1), number(2305843009213693951, -61));
    let mut x = number(1, 0);
    for i in 0..steps {
        let up = i % 2 == 1;
        x = match words[1].as_str() {
            "add" => x.add(a, up),
            "mul" => x.mul(b, up),
            "div" => x.div(b, up),
            _ => x,
        };
    }
    println!("{}", x.spelling());
}
