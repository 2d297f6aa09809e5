//! What the model says that `slate` prints for standard input.
use std::io::Read;

fn main() {
    let mut input = Vec::new();
    std::io::stdin().read_to_end(&mut input).expect("readable");
    print!("{}", jelvaksna::model::slate(&input));
}
