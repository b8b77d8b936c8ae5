//! Codes a value into 6 fragments by the installed library, loses two, and puts it together from 4 others.
#[path = "../library/coding.rs"]
mod coding;

use coding::{Fragment, Refused};

fn main() -> Result<(), Refused> {
    let value = b"any k of n pieces determine the value";
    let length = coding::fragment_length(4, value.len())?;
    let mut fragments = vec![0; 6 * length];
    coding::encode(4, 6, value, &mut fragments)?;
    let left: Vec<Fragment> = [5, 0, 3, 2].map(|i| Fragment::from(&fragments[i * length..][..length])).to_vec();
    let mut back = vec![0; value.len()];
    coding::decode(4, &[5, 0, 3, 2], &left, &mut back)?;
    println!("{}", String::from_utf8_lossy(&back));
    let mut lost = vec![0; length];
    coding::repair(4, &[5, 0, 3, 2], &left, 1, &mut back, &mut lost)?;
    println!("fragment 1 is repaired: {}", lost == fragments[length..][..length]);
    if let Err(refused) = coding::decode(4, &[5, 0, 3, 3], &left, &mut back) {
        println!("one point twice: {refused}");
    }
    println!("a level of the processor: {}", coding::processor().starts_with("x86-64-v"));
    Ok(())
}
