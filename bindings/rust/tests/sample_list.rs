//! Samples that are gathered from slices.

mod common;

use common::p;
use kahopiru::{to_vec, Panel, SampleList, Samples};

#[test]
fn slices_are_lent_back_to_back() {
    let list = SampleList::from_slices([&b"one"[..], b"", b"tw"]).unwrap();
    assert_eq!(list.as_samples(), Samples { lengths: &[3, 0, 2], bytes: b"onetw" });
    assert_eq!(SampleList::from_slices([[0; 0]; 0]).unwrap().as_samples(), Samples::default());
    // Owned and borrowed slices alike, from anything that can be gone through.
    let owned = vec![b"one".to_vec(), b"".to_vec(), b"tw".to_vec()];
    assert_eq!(SampleList::from_slices(&owned).unwrap(), list);
    assert_eq!(SampleList::from_slices(owned.iter().map(Vec::as_slice)).unwrap(), list);
    assert_eq!(SampleList::from_slices(owned).unwrap(), list);
}

#[test]
fn a_gathered_panel_has_the_same_file() {
    let (color, alpha) = (SampleList::from_slices([[0xAA]]).unwrap(), SampleList::from_slices([[0xBB]]).unwrap());
    let panel = Panel { color_samples: color.as_samples(), alpha_samples: alpha.as_samples(), ..p() };
    assert_eq!(to_vec(&panel), to_vec(&p()));
}

#[test]
fn a_sample_above_32_bits_is_an_error_and_the_list_stays() {
    // Zeroed memory that is not read, and so that is never really taken.
    let long = vec![0; 1 << 32];
    let mut list = SampleList::from_slices([b"one"]).unwrap();
    let why = list.push(&long).unwrap_err();
    assert_eq!((why.index(), why.length()), (1, 1 << 32));
    assert_eq!(why.to_string(), "sample 1, counted from 0, has 4294967296 bytes, and at most 4,294,967,295 fit");
    assert_eq!(list.as_samples(), Samples { lengths: &[3], bytes: b"one" });
    assert_eq!(SampleList::from_slices([&b"one"[..], &long, b"tw"]), Err(why));
}
