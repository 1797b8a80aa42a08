//! The library against the independent implementation: answers and every element of every buffer,
//! on seeded inputs. `MUNDREFOL_SEED` sets the seed; a failure names the seed and the case.

mod both;
#[path = "../cases/mod.rs"]
mod cases;
mod evolutions;
mod lent;
mod log;
mod multi;
mod optional;
mod read;
mod rests;
mod shorten;
mod sound;
mod tables;
mod unread;

use std::fmt::Debug;

/// Fails with the first element at which two buffers differ.
#[track_caller]
fn assert_same<T: PartialEq + Debug>(what: &str, library: &[T], plain: &[T]) {
    assert_eq!(library.len(), plain.len());
    let differs = library.iter().zip(plain).position(|(ours, theirs)| ours != theirs);
    if let Some(at) = differs {
        panic!("{what}[{at}]: library {:?}, plain {:?}", library[at], plain[at]);
    }
}
