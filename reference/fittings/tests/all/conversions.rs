//! What a conversion gives: bytes, answers and their order, and the way back.

use fittings::{convert, Conversion, Way, OLD, OURS};
use stacking::random::Random;

/// A record of the first fittings, whose every field reads differently both
/// ways: kind 3, detail 4, day 258, reference 16,909,060, a premise of eight
/// different bytes, retailer 67,305,985.
const OLD_RECORD: [u8; 20] = [
    3, 4, 1, 2, 1, 2, 3, 4, 11, 12, 13, 14, 15, 16, 17, 18, 4, 3, 2, 1,
];

/// The same as ours.
const OUR_RECORD: [u8; 24] = [
    3, 4, 2, 1, 4, 3, 2, 1, 18, 17, 16, 15, 14, 13, 12, 11, 1, 2, 3, 4, 0, 0, 0, 0,
];

/// A conversion into a buffer of so many bytes of 170: the answer and the buffer.
fn converted(way: Way, tape: &[u8], room: usize) -> (Conversion, Vec<u8>) {
    let mut output = vec![170; room];
    (convert(way, tape, &mut output), output)
}

fn refused(answer: u8, way: Way, tape: &[u8], room: usize) {
    let (conversion, output) = converted(way, tape, room);
    assert_eq!(conversion, Conversion { answer, written: 0 });
    assert!(output.iter().all(|&byte| byte == 170), "the buffer stays");
}

fn accepted(way: Way, tape: &[u8], room: usize) -> Vec<u8> {
    let (conversion, output) = converted(way, tape, room);
    let written = tape.len() / way.size_in() * way.size_out();
    assert_eq!(conversion, Conversion { answer: 0, written });
    assert!(
        output[written..].iter().all(|&byte| byte == 170),
        "the rest stays"
    );
    output[..written].to_vec()
}

fn bytes(random: &mut Random, many: usize) -> Vec<u8> {
    (0..many).map(|_| random.bits() as u8).collect()
}

#[test]
fn two_records_each_way() {
    let old = [OLD_RECORD, OLD_RECORD].concat();
    let ours = [OUR_RECORD, OUR_RECORD].concat();
    assert_eq!(accepted(Way::To24, &old, 50), ours);
    assert_eq!(accepted(Way::To20, &ours, 40), old);
}

#[test]
fn each_field_is_the_same_number() {
    let mut random = Random::new(9);
    for _ in 0..1_000 {
        let old = bytes(&mut random, OLD);
        let ours = accepted(Way::To24, &old, OURS);
        assert_eq!(ours[..2], old[..2]);
        assert_eq!(
            u16::from_le_bytes(ours[2..4].try_into().unwrap()),
            u16::from_be_bytes(old[2..4].try_into().unwrap())
        );
        assert_eq!(
            u32::from_le_bytes(ours[4..8].try_into().unwrap()),
            u32::from_be_bytes(old[4..8].try_into().unwrap())
        );
        assert_eq!(
            u64::from_le_bytes(ours[8..16].try_into().unwrap()),
            u64::from_be_bytes(old[8..16].try_into().unwrap())
        );
        assert_eq!(
            u32::from_le_bytes(ours[16..20].try_into().unwrap()),
            u32::from_be_bytes(old[16..20].try_into().unwrap())
        );
        assert_eq!(ours[20..], [0; 4]);
    }
}

#[test]
fn no_record_is_converted_to_none() {
    assert_eq!(accepted(Way::To24, &[], 0), []);
    assert_eq!(accepted(Way::To20, &[], 3), []);
}

#[test]
fn the_numbers_in_their_order() {
    for way in [Way::To24, Way::To20] {
        let size = way.size_in();
        for length in (1..200).filter(|length| length % size != 0) {
            refused(23, way, &vec![1; length], 0);
            refused(23, way, &vec![1; length], 1_000);
        }
        for records in 1..20 {
            refused(
                24,
                way,
                &vec![0; records * size],
                records * way.size_out() - 1,
            );
            accepted(way, &vec![0; records * size], records * way.size_out());
        }
    }
    let mut bad = [OUR_RECORD, OUR_RECORD].concat();
    for place in 44..48 {
        bad[place] = 1;
        refused(24, Way::To20, &bad, 39);
        refused(25, Way::To20, &bad, 40);
        bad[place] = 0;
    }
    accepted(Way::To20, &bad, 40);
}

#[test]
fn any_bytes_go_there_and_back() {
    let mut random = Random::new(20);
    for records in 0..200 {
        let old = bytes(&mut random, records * OLD);
        let ours = accepted(Way::To24, &old, records * OURS + 5);
        assert_eq!(accepted(Way::To20, &ours, records * OLD), old);
        assert_eq!(accepted(Way::To24, &old, records * OURS), ours);
    }
}
