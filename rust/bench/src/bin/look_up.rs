//! Looks up all 2,048 words by the proved lookup and by walks of the table
//! from the front, and prints the ratios (document 02, No. 3).

fn main() {
    bench::look_up::look_up();
}
