//! The numbers and words of refusals.

use std::error::Error;
use wispbundle::{ListRefusal, Refusal};

#[test]
fn numbers_run_from_1_to_18_and_there_is_22() {
    for (number, refusal) in (1..=18).chain([22]).zip(Refusal::ALL) {
        assert_eq!(refusal.number(), number);
        assert_eq!(Refusal::of_number(number), Some(refusal));
    }
    for other in [0, 19, 20, 21, 23, 255] {
        assert_eq!(Refusal::of_number(other), None);
    }
}

#[test]
fn each_says_its_number_and_words() {
    let shown = Refusal::NoRoom.to_string();
    assert_eq!(
        shown,
        "refusal 3: the lent output is shorter than what is to be written"
    );
    for refusal in Refusal::ALL {
        let start = format!("refusal {}: ", refusal.number());
        assert_eq!(refusal.to_string(), start + refusal.words());
    }
}

#[test]
fn one_of_a_list_says_its_index() {
    let (refusal, index) = (Refusal::BadOffset, Some(5));
    let refused = ListRefusal { refusal, index };
    assert_eq!((refused.number(), Refusal::from(refused)), (2, refusal));
    let boxed: Box<dyn Error> = Box::new(refused);
    assert_eq!(
        boxed.to_string(),
        "refusal 2 at index 5: piece offset above 8,191"
    );
    for refusal in [Refusal::TooLong, Refusal::NoRoom] {
        let index = None;
        let refused = ListRefusal { refusal, index };
        assert_eq!(refused.to_string(), refusal.to_string());
    }
}

#[test]
fn is_an_error() {
    let boxed: Box<dyn Error> = Box::new(Refusal::BadTime);
    assert_eq!(boxed.to_string(), "refusal 17: microseconds above 999,999");
}
