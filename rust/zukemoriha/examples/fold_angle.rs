//! Folds an angle of 1e22 degrees onto one turn, exactly.

use zukemoriha::{remainder_f64, Kind};

fn main() {
    match remainder_f64(1e22, 360.0, Kind::Truncated) {
        Ok(angle) => println!("{} degrees, quotient {}", angle.value, angle.quotient),
        Err(refusal) => println!("refused: {refusal}"),
    }
}
