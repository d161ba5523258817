use thresholm::{Error, Flavor, Multivector};

fn main() -> Result<(), Error> {
    let ahead = Multivector::vector(&[1.0, 0.0], Flavor::Vanilla)?;
    let left = Multivector::vector(&[0.0, 1.0], Flavor::Vanilla)?;
    let turn = (&ahead * &left)?;
    println!("{turn}");
    Ok(())
}
