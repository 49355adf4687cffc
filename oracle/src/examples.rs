//! Document 01's examples, the block of document 000, chapter 4.2, and examples of our own for datagrams.

use crate::description::settings;
use crate::rule::*;

const U1: Usb = Usb { header: 1, packing: 1, align: 4, size: 16, longest: 64, direction: 0 };
const U2: Usb = Usb { header: 5, packing: 2, align: 1, size: 8, longest: 100, direction: 0 };
const R: FlexRay = FlexRay { node: 7, direction: 0, ceiling: 32, header: 5, align: 2 };
const FRESH: Counter = Counter { known: false, expected: 0 };

fn known(expected: u32) -> Counter {
    Counter { known: true, expected }
}

fn hex(text: &str) -> Vec<u8> {
    text.split_whitespace().map(|b| u8::from_str_radix(b, 16).unwrap()).collect()
}

fn reads(s: &Usb, t: &str, c: Counter) -> Read {
    usb_read(s, &hex(t), c, 1_000)
}

fn writes(s: &Usb, packets: &str, lengths: &[u32], first: u32, fill: u8, full: bool) -> Write {
    usb_write(s, &hex(packets), lengths, first, fill, full, 1_000)
}

fn wire(text: &str, next: u32) -> Write {
    Write::Bytes(hex(text), next)
}

const HEAD: &str = "/begin XCP_ON_USB 0x0100 0x108C 0x0EDC 0x02 HEADER_LEN_FILL_WORD";
const OUT: &str =
    "/begin OUT_EP_CMD_STIM 0x01 BULK_TRANSFER 0x40 0 MESSAGE_PACKING_SINGLE /* only one */ ALIGNMENT_32_BIT /end OUT_EP_CMD_STIM";
const IN: &str = "/begin IN_EP_RESERR_DAQ_EVSERV 0x01 BULK_TRANSFER 0x40 0 MESSAGE_PACKING_SINGLE ALIGNMENT_32_BIT
    RECOMMENDED_HOST_BUFSIZE 1 // 64 bytes
    /end IN_EP_RESERR_DAQ_EVSERV";
const MORE: &str = "INTERFACE_STRING_DESCRIPTOR \"XCP /end\" /begin OUT_EP_ONLY_STIM /begin OUT_EP_CMD_STIM /end OUT_EP_CMD_STIM
    /end OUT_EP_ONLY_STIM";

/// The block is read in either order; it is refused with 9 where a `^` stands in these texts, or at their end.
fn check_texts() {
    let setting = |direction| Usb { header: 5, packing: 0, align: 4, size: 64, longest: 100, direction };
    for entries in [format!("{OUT} {IN} {MORE}"), format!("{MORE} {IN} {MORE} {OUT}")] {
        let text = format!("{HEAD} {entries} /end XCP_ON_USB");
        assert_eq!(settings(text.as_bytes(), 100), Ok([setting(1), setting(0)]));
        assert_eq!(settings(text.as_bytes(), 7), Err((1, 0)));
        let long = text.clone() + &" ".repeat(16_385 - text.len());
        assert_eq!(settings(&long.as_bytes()[1..], 100), Err((9, 0)));
        assert_eq!(settings(&long.as_bytes()[..16_384], 100), Ok([setting(1), setting(0)]));
        assert_eq!(settings(long.as_bytes(), 7), Err((2, 0)));
    }
    for refused in [
        format!("{HEAD} {OUT} /begin ^OUT_EP_CMD_STIM 1"),
        format!("{HEAD} {OUT} {IN} /end ^XCP_ON_USB_2"),
        format!("{HEAD} {OUT} /begin A /begin B /end ^A /end B"),
        format!("{HEAD} {OUT} {MORE} ^/end XCP_ON_USB"),
        format!("{HEAD} {OUT} {IN} /end XCP_ON_USB ^X"),
        format!("{HEAD} {OUT} /begin ^/end"),
        format!("{HEAD} {OUT} {IN} /end XCP_ON_USB /*/"),
        format!("{HEAD} {OUT} {IN} /end XCP_ON_USB \""),
        format!("{HEAD} {OUT} {IN} /end // XCP_ON_USB"),
        format!("{HEAD} {OUT} /begin A /begin B /end B"),
    ] {
        let place = refused.find('^').unwrap_or(refused.len());
        assert_eq!(settings(refused.replace('^', "").as_bytes(), 100), Err((9, place as u32)), "{refused}");
    }
}

const D: Udp = Udp { longest: 64, direction: 0 };

/// Two packets written and read, an empty datagram, and the refusals that Ask 3 names.
fn check_datagrams() {
    let two = "01 00 FF FF FF 03 00 00 00 01 02 03";
    let reads = |t: &str, c: Counter| udp_read(&D, &hex(t), c, 10);
    assert_eq!(udp_write(&D, &hex("FF 01 02 03"), &[1, 3], 65_535, 12), wire(two, 1));
    assert_eq!(reads(two, FRESH), Read::Rows(vec![[4, 1, 65_535, 0, 1], [9, 3, 0, 0, 5]], known(1)));
    assert_eq!(reads(two, known(65_531)), Read::Rows(vec![[4, 1, 65_535, 4, 1], [9, 3, 0, 0, 5]], known(1)));
    assert_eq!(reads("", FRESH), Read::Rows(vec![], FRESH));
    assert_eq!(udp_write(&D, &[], &[], 7, 0), wire("", 7));
    assert_eq!(reads("01 00 07 00 FF 00 00 08 00", FRESH), Read::Refused(6, 5));
    assert_eq!(reads("01 00 07 00 FF 01 00 08", FRESH), Read::Refused(5, 5));
    assert_eq!(reads("41 00 07 00", FRESH), Read::Refused(3, 0));
    assert_eq!(reads("40 00 07 00", FRESH), Read::Refused(5, 0));
    assert_eq!(udp_read(&D, &[0; 1_472], FRESH, 10), Read::Refused(6, 0));
    assert_eq!(udp_read(&D, &[0; 1_473], FRESH, 10), Read::Refused(2, 0));
    let top = Udp { longest: 1_468, ..D };
    assert_eq!(udp_write(&top, &[0; 1_465], &[1_464, 1], 0, 2_000), Write::Refused(4, 0));
    let Write::Bytes(out, 2) = udp_write(&top, &[0; 1_464], &[1_463, 1], 0, 1_472) else { panic!("1,472 bytes are a datagram") };
    assert_eq!(udp_read(&top, &out, FRESH, 10), Read::Rows(vec![[4, 1_463, 0, 0, 5], [1_471, 1, 1, 0, 5]], known(2)));
}

pub fn check() {
    check_texts();
    check_datagrams();
    let twelve = "01 FE FF EE 03 FF 01 02 03 EE EE EE";
    let rows = |a, b| Read::Rows(vec![[2, 1, 254, a, 1], [6, 3, 255, b, 5]], known(0));
    assert_eq!(writes(&U1, "FF 01 02 03", &[1, 3], 254, 0xEE, false), wire(twelve, 0));
    assert_eq!(writes(&U1, "FF 01 02 03", &[1, 3], 254, 0xEE, true), wire(&format!("{twelve} 00 EE EE EE"), 0));
    assert_eq!(reads(&U1, twelve, FRESH), rows(0, 0));
    assert_eq!(reads(&U1, twelve, known(250)), rows(4, 0));
    assert_eq!(reads(&U1, "01 00 05 00", known(255)), Read::Rows(vec![[2, 1, 0, 1, 5]], known(1)));
    assert_eq!(reads(&U1, "01 FF 05 00", known(0)), Read::Rows(vec![[2, 1, 255, 255, 5]], known(0)));
    assert_eq!(reads(&U1, "00 07 09 09", FRESH), Read::Rows(vec![], FRESH));
    assert_eq!(reads(&Usb { packing: 0, ..U1 }, "00 07 09 09", FRESH), Read::Refused(6, 0));
    for packing in 0..3 {
        assert_eq!(reads(&Usb { packing, ..U1 }, "", FRESH), Read::Rows(vec![], FRESH));
    }
    assert_eq!(reads(&U1, "01 00 FF", FRESH), Read::Refused(5, 0));
    assert_eq!(reads(&U1, "41 00", FRESH), Read::Refused(3, 0));
    assert_eq!(reads(&U1, "40 00", FRESH), Read::Refused(5, 0));
    assert_eq!(writes(&U2, "10 20", &[1, 1], 0, 0xAA, false), wire("01 00 AA AA 10 AA AA AA 01 00 AA AA 20", 0));
    let run_on = "05 00 AA AA 10 11 12 13 14 01 00 AA AA 20";
    assert_eq!(writes(&U2, "10 11 12 13 14 20", &[5, 1], 0, 0xAA, false), wire(run_on, 0));
    assert_eq!(reads(&U2, "05 00 AA AA 10 11 12 13", FRESH), Read::Refused(5, 0));
    assert_eq!(flexray_write(&R, &hex("FF"), &[1], 0, 0, 99), wire("07 01 FF 00", 0));
    assert_eq!(flexray_write(&R, &hex("01 02 FF"), &[2, 1], 0, 0xEE, 99), wire("07 02 01 02 EE 01 FF 00", 0));
    assert_eq!(flexray_read(&R, &hex("07 01 FF EE"), FRESH, 99), Read::Refused(5, 3));
    let bare = FlexRay { header: 0, align: 1, ..R };
    assert_eq!(flexray_write(&bare, &hex("FF 00"), &[2], 0, 0xEE, 99), wire("07 FF 00 EE", 0));
    assert_eq!(flexray_read(&bare, &hex("07 FF 00 EE"), FRESH, 99), Read::Rows(vec![[1, 3, 0, 0, 1]], FRESH));
}
