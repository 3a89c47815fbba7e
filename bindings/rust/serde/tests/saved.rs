//! Tests the saved form by serde's own test crate: bytes, sequences of numbers, and octets that are not a saved state.
use serde::{Deserialize, Serialize};
use serde_test::{assert_de_tokens, assert_de_tokens_error, assert_tokens, Token};

#[derive(Debug, Deserialize, PartialEq, Serialize)]
#[serde(transparent)]
struct Kept(#[serde(with = "um_serde")] um::Side);

#[test]
fn sides() {
    let mut side = um::Side::mobile(um::Channel::Sacch);
    assert!(side.open(&[5, 36]).is_ok());
    let octets: &'static [u8] = Box::leak(Box::new(side.to_bytes()));
    assert_tokens(&Kept(side), &[Token::Bytes(octets)]);
    let mut numbers = vec![Token::Seq { len: Some(octets.len()) }];
    numbers.extend(octets.iter().map(|&octet| Token::U8(octet)));
    numbers.push(Token::SeqEnd);
    assert_de_tokens(&Kept(side), &numbers);
    assert_de_tokens_error::<Kept>(&[Token::Bytes(b"umS1")], "4 octets; expected 5166");
    numbers.insert(1, Token::U8(0));
    numbers.pop(); // it stops at the octet too many
    let expected = "invalid length 5167, expected the 2585 octets of a saved endpoint, or the 5166 of a side";
    assert_de_tokens_error::<Kept>(&numbers, expected);
}
