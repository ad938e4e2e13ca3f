//! One call of the library beside the plain implementation: both must return the same number and
//! leave every byte of the lent space alike. Each gives the number and the space, a merge its two.

use crate::{library, plain, Merged, Pass};

fn expect_alike(what: &str, given: (u32, Vec<u8>), expected: (u32, Vec<u8>)) -> (u32, Vec<u8>) {
    assert_eq!(
        given.0, expected.0,
        "{what}: returned {} and not {}",
        given.0, expected.0
    );
    let differing = given.1.iter().zip(&expected.1).position(|(a, b)| a != b);
    if let Some(place) = differing {
        panic!(
            "{what}, returned {}: byte {place} of the lent space is {:02X} and not {:02X}",
            given.0, given.1[place], expected.1[place],
        );
    }
    given
}

pub fn build(bytes: &[u8], density: u8, place: usize, space: &[u8]) -> (u32, Vec<u8>) {
    let what = format!(
        "build of {} bytes, density {density}, place {place}, space of {}",
        bytes.len(),
        space.len()
    );
    expect_alike(
        &what,
        library::build(bytes, density, place, space),
        plain::build(bytes, density, place, space),
    )
}

pub fn restore(image: &[u8], marks: &[u8], space: &[u8]) -> (u32, Vec<u8>) {
    let what = format!(
        "restore of an image of {} bytes, count {}, space of {}, marks {marks:?}",
        image.len(),
        plain::image_count(image),
        space.len(),
    );
    expect_alike(
        &what,
        library::restore(image, marks, space),
        plain::restore(image, marks, space),
    )
}

pub fn merge(first: &Pass, second: &Pass, image_space: &[u8], marks_space: &[u8]) -> Merged {
    let what = format!(
        "merge of images of {} and {} bytes, counts {} and {}, marks {:?} and {:?}, spaces of {} and {}",
        first.image.len(),
        second.image.len(),
        plain::image_count(&first.image),
        plain::image_count(&second.image),
        first.marks,
        second.marks,
        image_space.len(),
        marks_space.len(),
    );
    let (given, given_image, given_marks) = library::merge(first, second, image_space, marks_space);
    let (wanted, image, marks) = plain::merge(first, second, image_space, marks_space);
    let of_image = format!("image of the {what}");
    let of_marks = format!("marks of the {what}");
    let (refusal, image) = expect_alike(&of_image, (given, given_image), (wanted, image));
    let (_, marks) = expect_alike(&of_marks, (given, given_marks), (wanted, marks));
    (refusal, image, marks)
}

pub fn scan(marks: &[u8], space: &[u8]) -> (u32, Vec<u8>) {
    let what = if marks.len() <= plain::mark_count(plain::LIMIT, 1) {
        format!("scan of {marks:?}, space of {}", space.len())
    } else {
        format!("scan of {} marks, space of {}", marks.len(), space.len())
    };
    expect_alike(
        &what,
        library::scan(marks, space),
        plain::scan(marks, space),
    )
}

/// It writes nothing, so that the number is all.
pub fn verify(image: &[u8]) -> u32 {
    let given = library::verify(image);
    assert_eq!(
        given,
        plain::verify(image),
        "verify of an image of {} bytes, count {}",
        image.len(),
        plain::image_count(image),
    );
    given
}
