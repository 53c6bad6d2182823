//! Cases whose answers are written down elsewhere: docs/CASES.md, the rules' numbers, and where the two part.

use oracle::answer::answer;
use oracle::known::expected;

/// ARRI's 256 bytes with a number at a place, as hex.
fn block(at: usize, number: u32) -> String {
    let mut bytes = [0; 256];
    bytes[at..at + 4].copy_from_slice(&number.to_be_bytes());
    bytes.iter().map(|byte| format!("{byte:02x}")).collect()
}

/// An ALEXA 35's element with one item, as hex.
fn element(item: &str, value: &str) -> String {
    let item = format!("060e2b340101010e0e170102{item}0000{:02x}{value}", value.len() / 2);
    format!("{:032}{:02x}{item}", 0, item.len() / 2)
}

/// The field of a frame's values that a name begins.
fn field(answer: &str, name: &str) -> String {
    let found = answer.split(' ').find_map(|field| field.strip_prefix(name)?.strip_prefix('='));
    found.unwrap_or_else(|| panic!("{answer} has no {name}")).to_string()
}

#[test]
fn lengths() {
    let answers = [("7f", "127 1"), ("80", "0 1"), ("8100", "0 2"), ("820100", "256 3"), ("89", "none"), ("81", "cut"), ("-", "cut")];
    for (bytes, right) in answers {
        assert_eq!(answer(&format!("ber {bytes}")), right);
    }
    assert_eq!(answer("ber 88ffffffffffffffff"), "18446744073709551615 9");
}

#[test]
fn a_search_past_the_end_stays_where_it_starts() {
    assert_eq!(answer("walk 17 060e2b340000000000000000000000008101"), "|18");
}

#[test]
fn an_empty_value_may_begin_past_the_end() {
    assert_eq!(answer("walk 17 060e2b340000000000000000000000008100"), "0,060e2b34000000000000000000000000,18,0;|18");
}

#[test]
fn an_end_past_the_bytes_is_refused() {
    for word in ["walk", "sony", "arri", "canon"] {
        assert_eq!(answer(&format!("{word} 1 -")), "refused 1");
    }
    assert_eq!(answer("step 1 0 -"), "refused 1");
    assert_eq!(answer("arrive 0 00"), "refused 2");
    assert_eq!(answer("set 32020004ffff"), "refused 4");
}

#[test]
fn a_size_of_0_is_the_whole_stream_to_the_rust() {
    let case = "sony 0 060e2b34010201010d0103011701020100";
    assert_eq!(answer(case), "0,0,17,0,,-;");
    assert_eq!(expected(case).0, "");
    assert_eq!(answer("arri 0 060e2b34024301010d0103010401030100"), "");
}

#[test]
fn a_number_becomes_an_f32_before_it_is_divided() {
    let focal_length = |number: u32| field(&answer(&format!("ofdynamic {}", block(0xa8, number))), "fl");
    for (number, rounded) in [(16_777_217, 16_777_216f32), (16_777_219, 16_777_220f32), (0xffff_fffe, 4_294_967_296f32)] {
        assert_eq!(focal_length(number), format!("{:08x}", (rounded / 1000.0).to_bits()));
    }
}

#[test]
fn distances_and_exposure_of_an_alexa_35() {
    assert_eq!(field(&answer(&format!("alexa {}", element("0d01", "000003e8"))), "fd"), format!("{:08x}", 1f32.to_bits()));
    assert_eq!(field(&answer(&format!("alexa {}", element("0d01", "ffffffff"))), "fd"), "7f800000");
    assert_eq!(field(&answer(&format!("alexa {}", element("0e01", "0000000100000009"))), "et"), "405bc71c71c71c71");
}

#[test]
fn apertures() {
    assert_eq!(answer("packs 01050000fffe"), "F_Number=s:Close;");
    assert_eq!(answer("packs 01050000001c"), "");
}

#[test]
fn gain_is_rounded_twice() {
    assert_eq!(answer("packs 010720ff3000"), "Gain=f:3fd3333333333334;Gain_Mode=c:0;");
}

#[test]
fn a_code_of_255_stands() {
    assert_eq!(answer("packs 02024000000002c0000000"), "Aperture_Mode=c:0;Focus_Mode=c:255;Image_Stabilizer=c:0;");
    assert_eq!(answer("packs 0108c0000000"), "HighSensitivityMode=c:0;IR_Status=c:3;");
    assert_eq!(answer("packs 0106ffffffff"), "Accurate_Flag=c:1;");
}

#[test]
fn every_private_camera_metadata_is_answered_in_turn() {
    let one = "060e2b340101010d0e1500010001000006011380000000";
    assert_eq!(answer(&format!("package 88002e{one}{one}")), "[011380000000]BaseISO=i:2147483648;".repeat(2));
    assert_eq!(answer("package 880011060e2b340101010d0e1500010001000000"), "[-]");
}

#[test]
fn a_position_that_is_not_8_bytes_long_erases_nothing() {
    assert_eq!(answer("sequence 1501000800000000000000011501000100"), "StartTimecode=i:1;");
    assert_eq!(answer("sequence 3c0a0000"), "InstanceUID=s:-;");
}

#[test]
fn the_header_parts_sum_saturates() {
    let pack = format!("00000000ffffffff{}ffffffffffffffff", "00".repeat(24));
    assert_eq!(answer(&format!("header 060e2b34020501010d0102010102040028{pack}aabb")), "57,2");
}
