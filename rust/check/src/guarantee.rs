//! Document 02, request 6: fewer than half the distance of places wrong, and a leaf limit of exactly the product.

use crate::blocks::{codeword, MOST_LEAVES};
use crate::call::{digits, Call};
use crate::compare::{Comparison, Disagreement};
use crate::random::Random;
use crate::small::word_of;
use second::{code, message_bits, Fault};

/// The product of 2 × (2^j − 1) for j from m down to m − r + 2, taken as 1 for r of 0 or 1.
pub fn product(m: usize, r: usize) -> usize {
    (2..=r).map(|i| 2 * ((1 << (m - r + i)) - 1)).product()
}

/// The greatest number of places below half the distance.
pub fn surely(m: usize, r: usize) -> usize {
    ((1 << (m - r)) - 1) / 2
}

/// A codeword sent, some places wrong: the candidate gives it back, and its answer says so.
pub fn mends(
    c: &mut Comparison,
    (m, r): (usize, usize),
    rounds: usize,
    sent: &[u8],
    noise: &[u8],
) -> Result<(), Disagreement> {
    let call = Call::decode(m, r, rounds, product(m, r), &code::sum(sent, noise));
    let effects = call.run(c.candidate);
    let wrong = noise.iter().map(|bit| *bit as u64).sum::<u64>();
    let answer = effects.answer;
    let counts = answer.rounds <= 2 && answer.leaves <= product(m, r) as u64 && answer.mended == wrong;
    c.mended += 1;
    if answer.refusal == 0 && counts && effects.out.as_deref() == Some(sent) {
        return Ok(());
    }
    let shown = effects.out.map(|out| digits(&out));
    Err(Disagreement(format!("not mended: {call}\n  sent {}\n  {answer:?}, output {shown:?}", digits(sent))))
}

/// Every codeword with every error of fewer than half the distance.
pub fn every(c: &mut Comparison, m: usize, r: usize) -> Result<(), Disagreement> {
    let errors = (0..1 << (1 << m)).filter(|number: &usize| number.count_ones() as usize <= surely(m, r));
    let errors: Vec<Vec<u8>> = errors.map(|number| word_of(m, number)).collect();
    for number in 0..1usize << message_bits(m, r) {
        let message: Vec<u8> = (0..message_bits(m, r)).map(|i| (number >> i & 1) as u8).collect();
        let sent = code::codeword(m, r, &message, Fault::None);
        errors.iter().try_for_each(|noise| mends(c, (m, r), 2, &sent, noise))?;
    }
    Ok(())
}

/// Blocks by chance, every second one with as many wrong places as are surely mended; nothing where no leaf limit is enough.
pub fn sampled(c: &mut Comparison, seed: u64, m: usize, r: usize) -> Result<(), Disagreement> {
    let mut random = Random::new(seed);
    let blocks = match product(m, r) {
        0..=3_000 => 200,
        3_001..=40_000 => 20,
        40_001..=MOST_LEAVES => 4,
        _ => 0,
    };
    for i in 0..blocks {
        let wrong = if i % 2 == 0 { surely(m, r) } else { random.below(surely(m, r) + 1) };
        let (sent, noise) = (codeword(&mut random, m, r), random.noise(1 << m, wrong));
        let rounds = 2 + random.below(15);
        mends(c, (m, r), rounds, &sent, &noise)?;
    }
    Ok(())
}
