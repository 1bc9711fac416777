//! The gateway against the library of the core's calls, bit for bit.

use calls::Answer;
use check::blocks::noisy;
use check::random::Random;
use second::{message_bits, profiles};

/// Bytes with a bad one now and then, of the right length or near it.
fn input(random: &mut Random, right: usize) -> Vec<u8> {
    let length = if random.once_in(6) { random.one_of(&[0, right - 1, right + 1]) } else { right };
    let mut bytes = random.bits(length);
    if length > 0 && random.once_in(6) {
        let place = random.below(length);
        bytes[place] = random.one_of(&[2, 255]);
    }
    bytes
}

fn output(random: &mut Random, right: usize) -> Vec<u8> {
    vec![7; if random.once_in(8) { right + 1 } else { right }]
}

/// Whether both give the same answer and leave the same output.
fn same(gateway: (u64, Vec<u8>), core: (Answer, Vec<u8>), what: &str) {
    assert_eq!((Answer::unpacked(gateway.0), gateway.1), core, "{what}");
}

#[test]
fn decoding() {
    let mut random = Random::new(1);
    for (number, blocks) in [(0, 4_000), (1, 1_000), (2, 400), (3, 100), (4, 8)] {
        let p = profiles::profile(number).expect("a profile of the table");
        let mut area = vec![0; 8 << p.m];
        for i in 0..blocks {
            let wrong = (i << (p.m - 1)) / blocks;
            let word = noisy(&mut random, p.m, p.r, wrong);
            let (mut out, mut core_out) = (vec![7; 1 << p.m], vec![7; 1 << p.m]);
            let bits = gateway::decode(number, &word, &mut out);
            let answer = calls::decode_profile(number, &word, &mut core_out, &mut area);
            same((bits, out), (answer, core_out), &format!("profile {number}, {word:?}"));
        }
    }
}

#[test]
fn bad_decoding() {
    let mut random = Random::new(2);
    let mut area = vec![0; 2_048];
    for _ in 0..20_000 {
        let number = random.one_of(&[0, 1, 2, 3, 5, 255, 256, 1 << 32, (1 << 32) + 1, usize::MAX]);
        let n = 1 << profiles::profile(number).map_or(5, |p| p.m);
        let (word, mut out) = (input(&mut random, n), output(&mut random, n));
        let mut core_out = out.clone();
        let bits = gateway::decode(number, &word, &mut out);
        let answer = calls::decode_profile(number, &word, &mut core_out, &mut area);
        same((bits, out), (answer, core_out), &format!("profile {number}, {word:?}"));
    }
}

#[test]
fn encoding_and_reading() {
    let mut random = Random::new(3);
    for i in 0..20_000 {
        let good = 1 + random.below(10);
        let m = random.one_of(&[good, good, good, 0, 11, 64, usize::MAX]);
        let r = random.below(good + 2);
        let (n, k) = (1 << good, message_bits(good, r.min(good)));
        let what = format!("call {i}, m {m}, r {r}");
        let (message, mut out) = (input(&mut random, k), output(&mut random, n));
        let mut core_out = out.clone();
        let bits = gateway::encode(m, r, &message, &mut out);
        same((bits, out.clone()), (calls::encode(m, r, &message, &mut core_out), core_out), &what);
        // the codeword just made, or a word by chance
        let word = if bits == 0 && random.once_in(2) { out } else { input(&mut random, n) };
        let mut out = output(&mut random, k);
        let mut core_out = out.clone();
        let bits = gateway::read_message(m, r, &word, &mut out);
        same((bits, out), (calls::read_message(m, r, &word, &mut core_out), core_out), &what);
    }
}
