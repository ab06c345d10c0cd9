//! Numbers that become values: every value comes back from its number, and every other number is an error that says
//! which numbers there are.

use kahopiru::{
    BitDepth, FileForm, MatrixCoefficients, Orientation, Primaries, Refusal, TransferFunction, UnknownCode,
};
use std::collections::BTreeSet;
use std::fmt::Debug;

/// The numbers that an error lists, as `N to N` and `N`, between "is" and "not".
fn listed(why: &UnknownCode) -> BTreeSet<u32> {
    let text = why.to_string();
    let (_, rest) = text.split_once(" is ").expect("the error lists what there is");
    let (list, given) = rest.rsplit_once(", not ").expect("the error says what was given");
    assert_eq!(given, why.given().to_string());
    let number = |word: &str| word.parse::<u32>().unwrap_or_else(|_| panic!("{word} is no number: {text}"));
    let run = |words: &str| match words.split_once(" to ") {
        Some((first, last)) => number(first)..=number(last),
        None => number(words)..=number(words),
    };
    list.split(", ").flat_map(|words| words.split(" or ")).flat_map(run).collect()
}

/// Tries every number of a type: those of `all` give their values, and no other gives one.
fn round_trip<T, N>(all: &[T], number: impl Fn(T) -> N, value: impl Fn(N) -> Result<T, UnknownCode>)
where
    T: Copy + Debug + PartialEq,
    N: Copy + Into<u32> + TryFrom<u32>,
{
    let numbers: BTreeSet<u32> = all.iter().map(|&v| number(v).into()).collect();
    assert_eq!(numbers.len(), all.len(), "two values have one number");
    for &v in all {
        assert_eq!(value(number(v)), Ok(v));
    }
    for given in (0..=65_536).chain([u32::MAX]).filter(|given| !numbers.contains(given)) {
        let Ok(narrow) = N::try_from(given) else { continue };
        let why = value(narrow).expect_err("a number that no value has");
        assert_eq!(why.given(), given);
        // Reading the list takes a while, and it is the same for each.
        if given < 300 {
            assert_eq!(listed(&why), numbers, "{why}");
        }
    }
}

#[test]
fn code_points_come_back() {
    round_trip(&Primaries::ALL, Primaries::code, Primaries::from_code);
    round_trip(&Primaries::ALL, Primaries::code, Primaries::try_from);
    round_trip(&TransferFunction::ALL, TransferFunction::code, TransferFunction::from_code);
    round_trip(&TransferFunction::ALL, TransferFunction::code, TransferFunction::try_from);
    round_trip(&MatrixCoefficients::ALL, MatrixCoefficients::code, MatrixCoefficients::from_code);
    round_trip(&MatrixCoefficients::ALL, MatrixCoefficients::code, MatrixCoefficients::try_from);
}

#[test]
fn depths_come_back_by_bits_and_by_code() {
    round_trip(&BitDepth::ALL, BitDepth::bits, BitDepth::from_bits);
    round_trip(&BitDepth::ALL, BitDepth::bits, BitDepth::try_from);
    round_trip(&BitDepth::ALL, BitDepth::code, BitDepth::from_code);
    assert_eq!(BitDepth::ALL.map(BitDepth::bits), [8, 10, 12]);
}

#[test]
fn orientations_come_back_by_exif_and_by_code() {
    round_trip(&Orientation::ALL, Orientation::exif, Orientation::from_exif);
    round_trip(&Orientation::ALL, Orientation::exif, Orientation::try_from);
    round_trip(&Orientation::ALL, Orientation::code, Orientation::from_code);
    assert_eq!(Orientation::ALL.map(Orientation::exif), [1, 2, 3, 4, 5, 6, 7, 8]);
    assert_eq!(Orientation::from_exif(6), Ok(Orientation::Rotate90));
}

#[test]
fn forms_come_back_by_code() {
    round_trip(&FileForm::ALL, FileForm::code, FileForm::from_code);
    assert_eq!(FileForm::ALL.map(FileForm::code), [0, 3]);
}

#[test]
fn refusals_come_back() {
    round_trip(&Refusal::ALL, Refusal::number, Refusal::try_from);
}

#[test]
fn an_unknown_code_goes_where_errors_go() {
    fn read(bits: u8) -> Result<BitDepth, Box<dyn std::error::Error + Send + Sync>> {
        Ok(BitDepth::try_from(bits)?)
    }
    assert_eq!(read(12).unwrap(), BitDepth::Twelve);
    assert_eq!(read(16).unwrap_err().to_string(), "a depth in bits is 8, 10 or 12, not 16");
}

#[test]
fn the_version_is_that_of_the_manifest() {
    let manifest = include_str!("../Cargo.toml");
    assert!(manifest.contains(&format!("\nversion = \"{}\"\n", kahopiru::VERSION)));
}
