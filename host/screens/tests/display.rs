//! The display value at halves of a nanohenry and beside them, at its limit, and where it is 0. k/1024 H is 976,562.5 k nH, a half
//! for every odd k; what is due is worked out in whole numbers.
use screens::{Refusal, display};

const LARGEST: i64 = 1_000_000_000_000_000;

/// The whole number below or at k/1024 H, in nanohenries.
fn below(k: i64) -> i64 {
    (k * 1_953_125).div_euclid(2)
}

/// The number k places further from zero.
fn away(x: f64, k: u64) -> f64 {
    f64::from_bits(x.to_bits() + k)
}

fn toward_zero(x: f64) -> f64 {
    f64::from_bits(x.to_bits() - 1)
}

#[test]
fn halves_go_to_the_even_number() {
    for k in -2_000_000..=2_000_000 {
        let due = match k % 2 {
            0 => below(k),
            _ => below(k) + below(k).rem_euclid(2),
        };
        assert_eq!(display(k as f64 / 1024.0), Ok(due), "{k}/1024");
    }
}

#[test]
fn beside_a_half_the_nearest_number_is_shown() {
    for k in (1..2_000_000).step_by(2) {
        let half = k as f64 / 1024.0;
        for (x, due) in [(toward_zero(half), below(k)), (away(half, 1), below(k) + 1)] {
            assert_eq!((display(x), display(-x)), (Ok(due), Ok(-due)), "beside {k}/1024");
        }
    }
}

#[test]
fn the_limit_is_read_after_rounding() {
    let last_half = 1_023_999_999.0 / 1024.0;
    assert_eq!(display(last_half), Ok(999_999_999_023_438));
    assert_eq!(display(-last_half), Ok(-999_999_999_023_438));
    // a place is 0.116 nH here: four places are below a half, the fifth above it
    for k in 0..5 {
        assert_eq!(display(away(1e6, k)), Ok(LARGEST));
        assert_eq!(display(away(-1e6, k)), Ok(-LARGEST));
    }
    for x in [away(1e6, 5), f64::MAX, f64::INFINITY, f64::NAN] {
        assert_eq!(display(x), Err(Refusal::Display));
        assert_eq!(display(-x), Err(Refusal::Display));
    }
}

#[test]
fn what_rounds_to_zero_is_shown_as_0() {
    for x in [0.0, 5e-324, f64::MIN_POSITIVE, 4e-10, 0.499_999_999e-9] {
        assert_eq!((display(x), display(-x)), (Ok(0), Ok(0)));
    }
}
