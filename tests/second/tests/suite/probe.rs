//! Probe gates.

use second::probe::{read, Calibration, Gate};
use second::Refusal;

const PLAIN: Calibration = Calibration {
    gain: 1.0,
    offset: 0.0,
};

fn both(low: f32, high: f32) -> [Gate; 2] {
    [Gate::Normal { low, high }, Gate::Inverted { low, high }]
}

/// Readings of the normal and the inverted gate.
fn readings(low: f32, high: f32, calibration: Calibration, raw: f32) -> [Option<u8>; 2] {
    both(low, high).map(|gate| read(gate, calibration, raw.to_bits()).unwrap())
}

const ZERO: [Option<u8>; 2] = [Some(0), Some(1)];
const ONE: [Option<u8>; 2] = [Some(1), Some(0)];
const NONE: [Option<u8>; 2] = [None, None];

#[test]
fn levels_and_one_bit_either_side() {
    for (low, high) in [(0.8, 2.0), (-3.5, -1.25), (-1.0, 1.0), (f32::MIN, f32::MAX)] {
        let reading = |volts| readings(low, high, PLAIN, volts);
        assert_eq!(reading(low), ZERO);
        assert_eq!(reading(high), ONE);
        assert_eq!(reading(low.next_up()), NONE);
        assert_eq!(reading(high.next_down()), NONE);
        if low > f32::MIN {
            assert_eq!(reading(low.next_down()), ZERO);
            assert_eq!(reading(high.next_up()), ONE);
        }
    }
}

#[test]
fn neighbouring_levels_leave_nothing_between() {
    let high = 1.0f32.next_up();
    assert_eq!(readings(1.0, high, PLAIN, 1.0), ZERO);
    assert_eq!(readings(1.0, high, PLAIN, high), ONE);
}

#[test]
fn signed_zeros_and_subnormals() {
    let tiny = f32::from_bits(1);
    for zero in [0.0, -0.0] {
        assert_eq!(readings(0.0, 1.0, PLAIN, zero), ZERO);
        assert_eq!(readings(-0.0, 1.0, PLAIN, zero), ZERO);
        assert_eq!(readings(-1.0, -0.0, PLAIN, zero), ONE);
        assert_eq!(readings(-1.0, 1.0, PLAIN, zero), NONE);
    }
    assert_eq!(readings(0.0, 1.0, PLAIN, tiny), NONE);
    assert_eq!(readings(0.0, tiny, PLAIN, tiny), ONE);
    for gate in both(-0.0, 0.0) {
        assert_eq!(read(gate, PLAIN, 0), Err(Refusal::UnfitGate));
    }
}

#[test]
fn nan_and_infinite_volts_are_no_reading() {
    for raw in [f32::NAN, -f32::NAN, f32::INFINITY, f32::NEG_INFINITY] {
        assert_eq!(readings(0.0, 1.0, PLAIN, raw), NONE);
    }
    for pattern in [0x7f80_0001, 0xff80_0001, 0x7fff_ffff, 0xffff_ffff] {
        for gate in both(0.0, 1.0) {
            assert_eq!(read(gate, PLAIN, pattern), Ok(None));
        }
    }
    let no_gain = Calibration {
        gain: 0.0,
        offset: 5.0,
    };
    assert_eq!(readings(0.0, 1.0, no_gain, f32::INFINITY), NONE);
    assert_eq!(readings(0.0, 1.0, no_gain, 3.0), ONE);
}

#[test]
fn overflow_of_product_or_sum_is_no_reading() {
    let double = Calibration {
        gain: 2.0,
        offset: f32::MIN,
    };
    assert_eq!(readings(0.0, 1.0, double, f32::MAX), NONE);
    let high = Calibration {
        gain: 1.0,
        offset: f32::MAX,
    };
    assert_eq!(readings(0.0, 1.0, high, f32::MAX), NONE);
    assert_eq!(readings(0.0, 1.0, high, f32::MIN), ZERO);
    let low = Calibration {
        gain: 1.0,
        offset: f32::MIN,
    };
    assert_eq!(readings(0.0, 1.0, low, f32::MIN), NONE);
}

#[test]
fn product_and_sum_are_rounded_apart() {
    let a = 1.0 + f32::EPSILON;
    let calibration = Calibration {
        gain: a,
        offset: -1.0 - 2.0 * f32::EPSILON,
    };
    assert_ne!(a.mul_add(calibration.gain, calibration.offset), 0.0);
    assert_eq!(calibration.volts(a), 0.0);
    assert_eq!(readings(0.0, 1.0, calibration, a), ZERO);
}

#[test]
fn a_dead_gate_reads_nothing_but_wants_a_calibration() {
    for raw in [0.0f32, 1.0, f32::NAN, f32::MAX] {
        assert_eq!(read(Gate::Dead, PLAIN, raw.to_bits()), Ok(None));
    }
    for wrong in [f32::NAN, f32::INFINITY, f32::NEG_INFINITY] {
        let gain = Calibration {
            gain: wrong,
            offset: 0.0,
        };
        let offset = Calibration {
            gain: 0.0,
            offset: wrong,
        };
        assert_eq!(read(Gate::Dead, gain, 0), Err(Refusal::UnfitGate));
        assert_eq!(read(Gate::Dead, offset, 0), Err(Refusal::UnfitGate));
    }
}

#[test]
fn refusal_16_of_levels_and_calibration() {
    for wrong in [f32::NAN, f32::INFINITY, f32::NEG_INFINITY] {
        for gate in [both(wrong, 1.0), both(0.0, wrong), both(wrong, wrong)].concat() {
            assert_eq!(read(gate, PLAIN, 0), Err(Refusal::UnfitGate));
        }
        for gate in both(0.0, 1.0) {
            let gain = Calibration {
                gain: wrong,
                offset: 0.0,
            };
            let offset = Calibration {
                gain: 1.0,
                offset: wrong,
            };
            assert_eq!(
                read(gate, gain, f32::NAN.to_bits()),
                Err(Refusal::UnfitGate)
            );
            assert_eq!(read(gate, offset, 0), Err(Refusal::UnfitGate));
        }
    }
    for (low, high) in [(1.0, 1.0), (1.0, 0.0), (0.0, -0.0)] {
        for gate in both(low, high) {
            assert_eq!(read(gate, PLAIN, 0).map_err(Refusal::number), Err(16));
        }
    }
}
