//! Streams, by single advances as document 01 has them, and by squares of many.
use uisnabar::{host, jump, HOSTS};

const SEEDS: [u64; 5] = [0, 1, 0x1_2fff_ffff, 0x0123_4567_89ab_cdef, u64::MAX];

fn advanced(state: u64) -> u64 {
    state.wrapping_mul(6364136223846793005).wrapping_add(1442695040888963407)
}

/// The state after so many draws: the pair of 2^i draws, applied twice, is that of 2^(i + 1).
fn after(mut state: u64, draws: u64) -> u64 {
    let (mut times, mut plus) = (6364136223846793005u64, 1442695040888963407u64);
    for bit in 0..64 {
        if draws >> bit & 1 == 1 {
            state = state.wrapping_mul(times).wrapping_add(plus);
        }
        (times, plus) = (times.wrapping_mul(times), plus.wrapping_mul(times).wrapping_add(plus));
    }
    state
}

#[test]
fn a_jump_is_so_many_advances() {
    for seed in SEEDS {
        let mut state = seed;
        for draws in 0..3000 {
            assert_eq!((jump(seed, draws), after(seed, draws)), (state, state), "{seed:016x}, {draws}");
            state = advanced(state);
        }
    }
}

#[test]
fn every_bit_of_both_numbers_counts() {
    for seed in SEEDS {
        for bit in 0..64 {
            for draws in [1 << bit, (1 << bit) - 1, u64::MAX - (1 << bit)] {
                assert_eq!(jump(seed, draws), after(seed, draws), "{seed:016x}, {draws}");
                assert_eq!(jump(seed ^ 1 << bit, draws), after(seed ^ 1 << bit, draws), "{seed:016x}, {draws}, {bit}");
            }
        }
    }
}

#[test]
fn jumps_add_modulo_2_64() {
    for seed in SEEDS {
        for (j, k) in [(0, 0), (1, u64::MAX), (1 << 63, 1 << 63), (1024, 660), (u64::MAX, u64::MAX), (1 << 40, 12345)] {
            assert_eq!(jump(jump(seed, j), k), jump(seed, j.wrapping_add(k)), "{seed:016x}, {j}, {k}");
        }
        assert_eq!(advanced(jump(seed, u64::MAX)), seed);
    }
}

#[test]
fn a_host_begins_2_40_draws_on_from_the_one_before() {
    for seed in SEEDS {
        assert_eq!(host(seed, 0), Ok(seed));
        for number in [0, 1, 2, 3, 255, 256, 65535, 65536, HOSTS / 2, HOSTS - 2] {
            let (begin, next) = (host(seed, number).unwrap(), host(seed, number + 1));
            assert_eq!((begin, next), (after(seed, number << 40), Ok(jump(begin, 1 << 40))), "{number}");
        }
        assert_eq!(jump(host(seed, HOSTS - 1).unwrap(), 1 << 40), seed);
    }
}

#[test]
fn no_other_number_is_a_host() {
    assert_eq!(HOSTS, 1 << 24);
    for seed in SEEDS {
        for number in [HOSTS, HOSTS + 1, 1 << 32, (1 << 32) + 5, 1 << 40, 1 << 63, u64::MAX - HOSTS, u64::MAX] {
            let refusal = host(seed, number).unwrap_err();
            assert_eq!(refusal.to_string(), "HOST part 0 place 0 rule 0 expected 0 found 0", "{number}");
            assert_eq!(refusal.verdict, 18);
        }
    }
}
