//! Writing then reading gives the graph again, and each accepted record is
//! what writing its graph gives.

use oracle::random::Random;
use oracle::record::{read, record, record_size, size};
use oracle::samples;

#[test]
fn written_records_are_read_back() {
    let mut random = Random::new(1);
    for round in 0..20_000 {
        let graph = samples::graph(&mut random, round % 32 + 1);
        let mut bytes = record(&graph);
        assert_eq!(bytes.len(), record_size(graph.order));
        assert_eq!(size(&bytes), Ok(bytes.len()));
        let tail = random.bytes(3);
        bytes.extend(&tail);
        let reading = read(&bytes);
        assert_eq!((reading.graph, reading.refusal), (graph, None));
        assert_eq!(reading.follows, tail);
    }
    assert_eq!(record_size(32), 129);
}

/// Every string of three bytes holds every record of orders 1 to 4 and the
/// starts of all others.
#[test]
fn accepted_records_are_what_writing_gives() {
    let mut accepted = [0u32; 33];
    for number in 0..1u32 << 24 {
        let bytes = &number.to_be_bytes()[1..];
        let reading = read(bytes);
        if reading.refusal.is_none() {
            assert_eq!(record(&reading.graph), bytes[..3 - reading.follows.len()]);
            if reading.follows.iter().all(|&byte| byte == 0) {
                accepted[reading.graph.order as usize] += 1;
            }
        } else {
            assert_eq!(reading.follows, bytes);
        }
    }
    assert_eq!(accepted[1..5], [1, 3 * 2, 27 * 4, 729 * 8]);
    assert!(accepted[5..].iter().all(|&count| count == 0));
}

#[test]
fn a_cut_record_is_refused_1_with_its_length() {
    let mut random = Random::new(2);
    for order in 1..=32 {
        let bytes = record(&samples::graph(&mut random, order));
        for length in 0..bytes.len() {
            let refusal = read(&bytes[..length]).refusal.expect("it is cut");
            assert_eq!((refusal.number, refusal.place), (1, length as u64));
        }
    }
}
