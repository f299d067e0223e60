//! The checksum.

mod common;
use wispbundle::{Refusal, ip_csum};

#[test]
fn worked_examples() {
    assert_eq!(ip_csum(&[]), Ok(0xffff));
    assert_eq!(ip_csum(&[0x01]), Ok(0xfeff));
    assert_eq!(ip_csum(&[0xff, 0xff]), Ok(0x0000));
}

#[test]
fn an_odd_last_byte_is_the_high_one() {
    assert_eq!(
        ip_csum(&[0x12, 0x34, 0x56]),
        ip_csum(&[0x12, 0x34, 0x56, 0x00])
    );
}

#[test]
fn the_longest_sum() {
    assert_eq!(ip_csum(&[0; 65_535]), Ok(0xffff));
    assert_eq!(ip_csum(&[0xff; 65_535]), Ok(0x00ff));
    assert_eq!(ip_csum(&[0; 65_536]), Err(Refusal::TooLong));
}

#[test]
fn bytes_with_their_sum_verify() {
    let mut bytes = common::counted(64);
    let sum = ip_csum(&bytes).unwrap();
    bytes.extend(sum.to_be_bytes());
    assert_eq!(ip_csum(&bytes), Ok(0));
}
