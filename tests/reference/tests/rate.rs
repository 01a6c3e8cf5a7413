//! Request c, "Choosing the rate": its sentences, each as small checks whose
//! answers are worked out by hand, and the fitters' program over it. A divider is
//! divisor times period. Behind the dividers looked at come clock less wanted rate
//! times divider, and that in millionths of wanted rate times divider.

mod command;
mod nearest;

use command::run;
use reference::fitters::{self, CommandLine};
use reference::rate::RateRefusal::{self, EveryPairTooFar, OutsideItsRange};
use reference::rate::{choose, program, Case, Chosen};

/// Divisor, period and deviation.
fn chosen(clock: u32, wanted: u32) -> (u32, u32, i32) {
    let answer = choose(clock, wanted);
    let Ok(Chosen {
        divisor,
        period,
        deviation,
    }) = answer
    else {
        panic!("{clock} and {wanted}: {answer:?}");
    };
    (divisor, period, deviation)
}

fn assert_chosen(rows: &[(u32, u32, (u32, u32, i32))]) {
    for (clock, wanted, expected) in rows {
        let answer = chosen(*clock, *wanted);
        assert_eq!(answer, *expected, "{clock} and {wanted}");
    }
}

fn assert_refused(refusal: RateRefusal, rows: &[(u32, u32)]) {
    for (clock, wanted) in rows {
        let answer = choose(*clock, *wanted);
        assert_eq!(answer, Err(refusal), "{clock} and {wanted}");
    }
}

// ---------------------------------------------------------------------------
// The choice
// ---------------------------------------------------------------------------

/// "25 MHz and 9,600 give 32 and 81, deviation +4693."
///
/// 25,000,000 / 9,600 is 2,604.2. 8 * 255 is 2,040, too small by far; 32 * 81 is
/// 2,592 and gives 9,645.06, 45.06 above; 32 * 82 is 2,624 and gives 9,527.44,
/// 72.56 below. 25,000,000 - 9,600 * 2,592 is 116,800, and 116,800,000,000 /
/// 24,883,200 is 4,693.93.
#[test]
fn the_example_of_the_request() {
    assert_eq!(chosen(25_000_000, 9600), (32, 81, 4693));
}

/// "pick a divisor of 8, 32, 128, 512 or 2048 and a period from 1 to 255. The real
/// rate is the clock over divisor times period."
#[test]
fn each_divisor() {
    let rows = [
        // 1,843,200 / (8 * 1) is 230,400.
        (1_843_200, 230_400, (8, 1, 0)),
        // 104.2: 8 * 13 is 104; 1,000,000 - 998,400 is 1,600; 1,602.6.
        (1_000_000, 9600, (8, 13, 1602)),
        // 138.9: 8 * 17 is 136 and gives 117,647, 2,447 above; 8 * 18 is 144 and
        // gives 111,111, 4,089 below. 16,000,000 - 15,667,200 is 332,800; 21,241.8.
        (16_000_000, 115_200, (8, 17, 21_241)),
        // 6,250: 32 * 195 is 6,240 and gives 9,615.4; 32 * 196 is 6,272 and gives
        // 9,566.3. 60,000,000 - 59,904,000 is 96,000; 1,602.6.
        (60_000_000, 9600, (32, 195, 1602)),
        // 13,333.3: 128 * 104 is 13,312 and gives 300.5; 128 * 105 is 13,440 and
        // gives 297.6. 4,000,000 - 3,993,600 is 6,400; 1,602.6.
        (4_000_000, 300, (128, 104, 1602)),
        // 80,000: 512 * 156 is 79,872; 4,000,000 - 3,993,600 is 6,400; 1,602.6.
        (4_000_000, 50, (512, 156, 1602)),
        // 160,000: 2048 * 78 is 159,744; 8,000,000 - 7,987,200 is 12,800; 1,602.6.
        (8_000_000, 50, (2048, 78, 1602)),
        // 530,973.5: more than 2048 * 255, which is 522,240; 60,000,000 -
        // 59,013,120 is 986,880; 16,723.06.
        (60_000_000, 113, (2048, 255, 16_723)),
    ];
    assert_chosen(&rows);
}

/// "Give the signed deviation": below 0 where the real rate is below the wanted
/// one.
#[test]
fn the_sign_of_the_deviation() {
    let rows = [
        // 16,756.4: 128 * 130 is 16,640 and gives 110.77, 0.77 above; 128 * 131 is
        // 16,768 and gives 109.92, 0.08 below. 1,843,200 - 1,844,480 is -1,280;
        // -693.96.
        (1_843_200, 110, (128, 131, -693)),
        // 260.4: 8 * 32 is 256 and gives 234,375, 3,975 above; 8 * 33 is 264 and
        // gives 227,272.7, 3,127.3 below. 60,000,000 - 60,825,600 is -825,600;
        // -13,573.2.
        (60_000_000, 230_400, (8, 33, -13_573)),
        // 500,000: 2048 * 244 is 499,712; 1,000,000 - 999,424 is 576; 576.3.
        (1_000_000, 2, (2048, 244, 576)),
        // 112.1: 8 * 14 is 112 and gives 223,214.3. 25,000,000 - 24,976,000 is 24,000;
        // 960.9.
        (25_000_000, 223_000, (8, 14, 960)),
        // 111.9: the same pair. 25,000,000 - 25,032,000 is -32,000; -1,278.4.
        (25_000_000, 223_500, (8, 14, -1278)),
    ];
    assert_chosen(&rows);
}

// ---------------------------------------------------------------------------
// Ties
// ---------------------------------------------------------------------------

/// "ties go to the smaller divisor": with the same divider, 8 with a period of 4
/// times 1 to 63 goes before 32 with 1 to 63, and so on; from 64 on the period
/// can't be four times as long.
#[test]
fn ties_between_two_divisors() {
    let rows = [
        // 125,000 * 32; 32 is 8 * 4 and 32 * 1.
        (4_000_000, 125_000, (8, 4, 0)),
        // 9,600 * 192; 192 is 8 * 24 and 32 * 6.
        (1_843_200, 9600, (8, 24, 0)),
        // 1,000 * 2,016; 2,016 is 8 * 252 and 32 * 63.
        (2_016_000, 1000, (8, 252, 0)),
        // 500 * 2,048; 2,048 is 32 * 64, 128 * 16, 512 * 4 and 2048 * 1.
        (1_024_000, 500, (32, 64, 0)),
        // 1,000 * 8,064; 8,064 is 32 * 252 and 128 * 63.
        (8_064_000, 1000, (32, 252, 0)),
        // 1,000 * 8,192; 8,192 is 128 * 64, 512 * 16 and 2048 * 4.
        (8_192_000, 1000, (128, 64, 0)),
        // 100 * 32,256; 32,256 is 128 * 252 and 512 * 63.
        (3_225_600, 100, (128, 252, 0)),
        // 100 * 32,768; 32,768 is 512 * 64 and 2048 * 16.
        (3_276_800, 100, (512, 64, 0)),
        // 100 * 129,024; 129,024 is 512 * 252 and 2048 * 63.
        (12_902_400, 100, (512, 252, 0)),
        // 100 * 131,072; 131,072 is 2048 * 64 alone.
        (13_107_200, 100, (2048, 64, 0)),
        // 128.2; 128 is 8 * 16, 32 * 4 and 128 * 1 and gives 7,812.5; 1,000,000 -
        // 998,400 is 1,600; 1,602.6.
        (1_000_000, 7800, (8, 16, 1602)),
    ];
    assert_chosen(&rows);
}

/// "then the smaller period": one rate above the wanted one, one as far below it.
/// So the higher rate is chosen, and the deviation is above 0.
#[test]
fn ties_between_two_periods() {
    let rows = [
        // 160 gives 6,258 and 168 gives 5,960: both 149 away. 149 / 6,109 is 1/41.
        (1_001_280, 6109, (8, 20, 24_390)),
        // 160 gives 235,998 and 168 gives 224,760: both 5,619 away; 1/41.
        (37_759_680, 230_379, (8, 20, 24_390)),
        // 168 gives 5,984 and 176 gives 5,712: both 136 away; 1/43.
        (1_005_312, 5848, (8, 21, 23_255)),
        // 2,032 gives 510 and 2,040 gives 508; 1/509.
        (1_036_320, 509, (8, 254, 1964)),
        // 2,048 gives 520 and 2,080 gives 512: both 4 away; 4/516 is 1/129.
        (1_064_960, 516, (32, 64, 7751)),
        // 12,800 gives 202 and 12,928 gives 200; 1/201.
        (2_585_600, 201, (128, 100, 4975)),
        // 32,768 gives 130 and 33,280 gives 128; 1/129.
        (4_259_840, 129, (512, 64, 7751)),
        // 131,072 gives 130 and 133,120 gives 128; 1/129.
        (17_039_360, 129, (2048, 64, 7751)),
    ];
    assert_chosen(&rows);
}

/// "ties go to the smaller divisor", though its period is the longer one.
#[test]
fn ties_between_255_and_the_next_divisors_64() {
    let rows = [
        // 8 * 255 is 2,040 and gives 512; 32 * 64 is 2,048 and gives 510; 1/511.
        (1_044_480, 511, (8, 255, 1956)),
        // 32 * 255 is 8,160 and gives 512; 128 * 64 is 8,192 and gives 510.
        (4_177_920, 511, (32, 255, 1956)),
        // 128 * 255 is 32,640 and gives 512; 512 * 64 is 32,768 and gives 510.
        (16_711_680, 511, (128, 255, 1956)),
    ];
    assert_chosen(&rows);
}

/// "compared as exact fractions": one Hz beside a tie there is none.
#[test]
fn beside_a_tie() {
    let rows = [
        // One Hz fewer: 160 gives 6,257.99 and 168 gives 5,959.99. 1,001,279 -
        // 977,440 is 23,839; 24,389.2.
        (1_001_279, 6109, (8, 20, 24_389)),
        // One Hz more: 160 gives 6,258.006 and 168 gives 5,960.006, so the second
        // is nearer; cut to whole rates both would be 149 away. And the divider
        // wanted is 163.90, nearer to 160 than to 168. 1,001,281 - 1,026,312 is
        // -25,031; -24,389.3.
        (1_001_281, 6109, (8, 21, -24_389)),
        // 1,044,479 - 1,042,440 is 2,039; 1,955.99.
        (1_044_479, 511, (8, 255, 1955)),
        // 1,044,481 - 1,046,528 is -2,047; -1,955.99.
        (1_044_481, 511, (32, 64, -1955)),
        // 57 times 1,044,480 and 57 times 511, and one Hz more: 59,535,361 -
        // 59,419,080 is 116,281, and 1,956.96 for 8 * 255; 59,535,361 - 59,652,096
        // is -116,735, and -1,956.93 for 32 * 64. Cut, both would be as far.
        (59_535_361, 29_127, (32, 64, -1956)),
        (59_535_360, 29_127, (8, 255, 1956)),
    ];
    assert_chosen(&rows);
}

/// "compared as exact fractions": two distances that differ by as little as they
/// can.
#[test]
fn nearly_a_tie() {
    let rows = [
        // 41 * 1,006,361 is one more than 2 * 8 * 20 * 21 * 6,140. 160 gives
        // 6,289.75625, 149.75625 above; 168 gives 5,990.24405, 149.75595 below.
        // 1,006,361 - 1,031,520 is -25,159; -24,390.2.
        (1_006_361, 6140, (8, 21, -24_390)),
        // 41 * 1,002,919 is one less than 2 * 8 * 20 * 21 * 6,119. 160 gives
        // 6,268.24375, 149.24375 above; 168 gives 5,969.75595, 149.24405 below.
        // 1,002,919 - 979,040 is 23,879; 24,390.2.
        (1_002_919, 6119, (8, 20, 24_390)),
        // 241 * 58,486,801 is one more than 2 * 2048 * 120 * 121 * 237. 2048 * 120 is
        // 245,760, and 58,486,801 - 58,245,120 is 241,681; 2048 * 121 is 247,808, and
        // 58,486,801 - 58,730,496 is -243,695. 241,681 * 247,808 is 59,890,485,248,
        // and 243,695 * 245,760 is 59,890,483,200: both are 0.983402 away, but the
        // second one by 3 hundred-millionths less. -243,695,000,000 / 58,730,496 is
        // -4,149.4.
        (58_486_801, 237, (2048, 121, -4149)),
    ];
    assert_chosen(&rows);
}

// ---------------------------------------------------------------------------
// Cutting
// ---------------------------------------------------------------------------

/// "cut toward zero", above the wanted rate and below it.
#[test]
fn deviations_are_cut_toward_zero() {
    let rows = [
        // 8 * 1: one Hz is 1,000,000 / 1,843,200, or 0.54 millionths.
        (1_843_198, 230_400, (8, 1, -1)),
        (1_843_199, 230_400, (8, 1, 0)),
        (1_843_200, 230_400, (8, 1, 0)),
        (1_843_201, 230_400, (8, 1, 0)),
        (1_843_202, 230_400, (8, 1, 1)),
        // 32 * 250 is 8,000; 250 * 8,000 is 2,000,000: one Hz is half a millionth.
        (1_999_996, 250, (32, 250, -2)),
        (1_999_997, 250, (32, 250, -1)),
        (1_999_998, 250, (32, 250, -1)),
        (1_999_999, 250, (32, 250, 0)),
        (2_000_000, 250, (32, 250, 0)),
        (2_000_001, 250, (32, 250, 0)),
        (2_000_002, 250, (32, 250, 1)),
        (2_000_003, 250, (32, 250, 1)),
        (2_000_004, 250, (32, 250, 2)),
        // 125 * 8,000 is 1,000,000: one Hz is one millionth.
        (1_000_000, 125, (32, 250, 0)),
        (1_000_001, 125, (32, 250, 1)),
        (1_000_002, 125, (32, 250, 2)),
    ];
    assert_chosen(&rows);
}

/// Just short of a whole millionth, and just beyond one.
#[test]
fn deviations_near_whole_millionths() {
    let rows = [
        // 13,889 * 72 is 1,000,008: one Hz is 0.999992 millionths.
        (1_000_006, 13_889, (8, 9, -1)),
        (1_000_007, 13_889, (8, 9, 0)),
        (1_000_009, 13_889, (8, 9, 0)),
        (1_000_010, 13_889, (8, 9, 1)),
        // 17,857 * 112 is 1,999,984: two Hz are 1.000008 millionths.
        (1_999_982, 17_857, (8, 14, -1)),
        (1_999_983, 17_857, (8, 14, 0)),
        (1_999_985, 17_857, (8, 14, 0)),
        (1_999_986, 17_857, (8, 14, 1)),
    ];
    assert_chosen(&rows);
}

// ---------------------------------------------------------------------------
// Refusals
// ---------------------------------------------------------------------------

#[test]
fn the_numbers_of_the_refusals() {
    assert_eq!(OutsideItsRange.number(), 12);
    assert_eq!(EveryPairTooFar.number(), 13);
}

/// "12 clock or rate outside its range": "a clock (1,000,000 to 60,000,000 Hz) and
/// a wanted rate (1 to 230,400)"
#[test]
fn refusal_12() {
    let most = u32::MAX;
    for clock in [0, 1, 999_999, 60_000_001, 60_000_002, 1 << 31, most] {
        let rates = [0, 1, 110, 9600, 230_400, 230_401, most];
        assert_refused(OutsideItsRange, &rates.map(|wanted| (clock, wanted)));
    }
    for wanted in [0, 230_401, 230_402, 1_000_000, 1 << 31, most] {
        let clocks = [0, 999_999, 1_000_000, 1_843_200, 60_000_000, most];
        assert_refused(OutsideItsRange, &clocks.map(|clock| (clock, wanted)));
    }
    // 8 * 1 would give 230,401 exactly, and 8 * 13 would give about 9,600.
    assert_refused(
        OutsideItsRange,
        &[(1_843_208, 230_401), (999_999, 9600), (60_000_001, 9600)],
    );
}

/// The ends of both ranges are in them.
#[test]
fn the_ends_of_the_ranges() {
    let rows = [
        (1_000_000, 9600, (8, 13, 1602)),
        (60_000_000, 9600, (32, 195, 1602)),
        (1_843_200, 230_400, (8, 1, 0)),
        (60_000_000, 230_400, (8, 33, -13_573)),
        // 8 * 13 again: 1,000,001 - 998,400 is 1,601; 1,603.6.
        (1_000_001, 9600, (8, 13, 1603)),
        // 59,999,999 - 59,904,000 is 95,999; 1,602.55.
        (59_999_999, 9600, (32, 195, 1602)),
        // 1,843,200 - 1,843,192 is 8; 4.34.
        (1_843_200, 230_399, (8, 1, 4)),
    ];
    assert_chosen(&rows);
    // The lowest rate that there is, 1,000,000 / 522,240, is 1.9: so 1 is in its
    // range, but no pair is near it.
    let clocks = [1_000_000, 1_044_480, 25_000_000, 60_000_000];
    assert_refused(EveryPairTooFar, &clocks.map(|clock| (clock, 1)));
}

/// "Lower numbers first": 12 where every pair is too far, too.
#[test]
fn refusal_12_comes_before_13() {
    assert_refused(EveryPairTooFar, &[(1_000_000, 1), (1_000_000, 230_400)]);
    assert_refused(OutsideItsRange, &[(999_999, 1), (1_000_000, 230_401)]);
    assert_refused(OutsideItsRange, &[(60_000_001, 1), (60_000_000, 0)]);
}

/// "13 exactly if every pair is more than 25,000 millionths away, before cutting":
/// the lowest rate is that of 2048 * 255, or 522,240.
#[test]
fn the_limit_below_the_lowest_rate() {
    let rows = [
        // 2 * 522,240 is 1,044,480, and a fortieth of that is 26,112. One Hz is 0.96
        // millionths.
        (1_070_592, 2, (2048, 255, 25_000)),
        (1_070_591, 2, (2048, 255, 24_999)),
        // 112 * 522,240 is 58,490,880, and a fortieth of that is 1,462,272. One Hz is
        // 0.017 millionths, 58 Hz are 0.99 and 59 Hz are 1.01.
        (59_953_152, 112, (2048, 255, 25_000)),
        (59_953_151, 112, (2048, 255, 24_999)),
        (59_953_094, 112, (2048, 255, 24_999)),
        (59_953_093, 112, (2048, 255, 24_998)),
    ];
    assert_chosen(&rows);
    // 25,000.96 and 25,000.02: cut, they would not be more than 25,000.
    let beyond = [(1_070_593, 2), (59_953_153, 112), (60_000_000, 112)];
    assert_refused(EveryPairTooFar, &beyond);
}

/// The highest rate is that of 8 * 1, or 8.
#[test]
fn the_limit_above_the_highest_rate() {
    let rows = [
        // 128,210 * 8 is 1,025,680, and a fortieth of that is 25,642.
        (1_000_038, 128_210, (8, 1, -25_000)),
        (1_000_039, 128_210, (8, 1, -24_999)),
        // 230,400 * 8 is 1,843,200, and a fortieth of that is 46,080.
        (1_797_120, 230_400, (8, 1, -25_000)),
        (1_797_121, 230_400, (8, 1, -24_999)),
    ];
    assert_chosen(&rows);
    // -25,000.97 and -25,000.54, and with a rate higher by 1.
    let beyond = [
        (1_000_037, 128_210),
        (1_797_119, 230_400),
        (1_000_038, 128_211),
    ];
    assert_refused(EveryPairTooFar, &beyond);
}

/// Up to 8 * 20 the pairs stand so far apart that there are such limits between
/// them.
#[test]
fn the_limits_between_two_pairs() {
    let rows = [
        // 121,955 * 8 is 975,640, and a fortieth of that is 24,391. One Hz is 1.02
        // millionths. 8 * 2 is far off.
        (1_000_031, 121_955, (8, 1, 25_000)),
        (1_000_030, 121_955, (8, 1, 24_998)),
        // 64,105 * 16 is 1,025,680, and a fortieth of that is 25,642.
        (1_000_038, 64_105, (8, 2, -25_000)),
        (1_000_039, 64_105, (8, 2, -24_999)),
        // 10,000 * 152 is 1,520,000, and a fortieth of that is 38,000; 8 * 20 is 160,
        // and 1,558,000 / 160 is 9,737.5, 26,250 millionths below.
        (1_558_000, 10_000, (8, 19, 25_000)),
        (1_557_999, 10_000, (8, 19, 24_999)),
        // 10,000 * 160 is 1,600,000, and a fortieth of that is 40,000; 1,560,000 / 152
        // is 10,263.2, 26,316 millionths above.
        (1_560_000, 10_000, (8, 20, -25_000)),
        (1_560_001, 10_000, (8, 20, -24_999)),
    ];
    assert_chosen(&rows);
    let beyond = [
        (1_000_032, 121_955),
        (1_000_037, 64_105),
        (1_558_001, 10_000),
        (1_559_999, 10_000),
    ];
    assert_refused(EveryPairTooFar, &beyond);
}

/// "every pair": where one pair is too far, another may be near enough.
#[test]
fn another_pair_is_near_enough() {
    let rows = [
        // 6,100 * 160 is 976,000, and a fortieth of that is 24,400: 8 * 20 is just
        // 25,000 millionths above. 8 * 21 is 168: 1,000,400 - 1,024,800 is -24,400;
        // -23,809.5. With more Hz that one comes nearer.
        (1_000_400, 6100, (8, 21, -23_809)),
        (1_000_401, 6100, (8, 21, -23_808)),
        // 10,000 * 168 is 1,680,000, and a fortieth of that is 42,000: 8 * 21 is just
        // 25,000 millionths below. 8 * 20 is 160: 1,638,000 - 1,600,000 is 38,000;
        // 23,750 exactly.
        (1_638_000, 10_000, (8, 20, 23_750)),
        (1_637_999, 10_000, (8, 20, 23_749)),
    ];
    assert_chosen(&rows);
    // A tie where both are too far: 152 gives 6,600 and 160 gives 6,270, both 165
    // away from 6,435; 1/39 is 25,641 millionths.
    assert_refused(EveryPairTooFar, &[(1_003_200, 6435)]);
}

/// "No refusal is given outside these conditions." With 1,000,000 Hz the highest
/// rates are 125,000 and 62,500.
#[test]
fn all_rates_between_the_first_two_pairs() {
    let rows = [
        // 1,000,000 - 1,025,640 is -25,640; -24,999.02.
        (1_000_000, 128_205, (8, 1, -24_999)),
        // 1,000,000 - 975,616 is 24,384; 24,993.4.
        (1_000_000, 121_952, (8, 1, 24_993)),
        // 1,000,000 - 1,025,632 is -25,632; -24,991.4.
        (1_000_000, 64_102, (8, 2, -24_991)),
    ];
    assert_chosen(&rows);
    for wanted in (64_103..=121_951).chain(128_206..=230_400) {
        assert_eq!(choose(1_000_000, wanted), Err(EveryPairTooFar), "{wanted}");
    }
    for wanted in 121_952..=128_205 {
        let (divisor, period, _) = chosen(1_000_000, wanted);
        assert_eq!((divisor, period), (8, 1), "{wanted}");
    }
}

// ---------------------------------------------------------------------------
// By another way
// ---------------------------------------------------------------------------

/// There are 1275 pairs and 1023 dividers: 255 of 8, and 192 more of each other
/// divisor.
#[test]
fn the_row_of_dividers() {
    let row = nearest::dividers();
    let pairs = row.iter().map(|divider| nearest::pairs_of(*divider).len());
    assert_eq!((row.len(), pairs.sum::<usize>()), (1023, 1275));
    assert_eq!(
        nearest::pairs_of(2048),
        [(32, 64), (128, 16), (512, 4), (2048, 1)]
    );
    assert_eq!(nearest::pairs_of(2592), [(32, 81)]);
    assert_eq!(nearest::pairs_of(2056), []);
}

#[test]
fn the_choice_by_another_way() {
    for clock in (999_000..=60_001_000).step_by(1_234_567) {
        for wanted in (0..=230_500).step_by(229).chain(0..600) {
            let case = Case { clock, wanted };
            assert_eq!(case.answer(), nearest::answer(&case), "{case:?}");
        }
    }
}

// ---------------------------------------------------------------------------
// The rates form
// ---------------------------------------------------------------------------

fn answers(lines: &str) -> String {
    let mut output = Vec::new();
    program(lines.as_bytes(), &mut output).expect("well-formed lines");
    String::from_utf8(output).expect("answers are text")
}

#[test]
fn answers_of_cases() {
    assert_eq!(answers(""), "");
    assert_eq!(answers("25000000 9600"), "0 32 81 4693 0\n");
    let lines = [
        ("25000000 9600", "0 32 81 4693 0"),
        ("1843200 110", "0 128 131 693 1"),
        ("1843200 230400", "0 8 1 0 0"),
        ("1843201 230400", "0 8 1 0 0"),
        // Cut to 0, so it is not below 0.
        ("1843199 230400", "0 8 1 0 0"),
        ("1843198 230400", "0 8 1 1 1"),
        ("1797120 230400", "0 8 1 25000 1"),
        ("1797119 230400", "13 0 0 0 0"),
        ("1070592 2", "0 2048 255 25000 0"),
        ("1070593 2", "13 0 0 0 0"),
        ("999999 9600", "12 0 0 0 0"),
        ("1000000 230401", "12 0 0 0 0"),
        ("0 0", "12 0 0 0 0"),
        ("4294967295 4294967295", "12 0 0 0 0"),
        ("0025000000 0000000000009600", "0 32 81 4693 0"),
    ];
    let (asked, answered): (Vec<&str>, Vec<&str>) = lines.into_iter().unzip();
    assert_eq!(answers(&asked.join("\n")), answered.join("\n") + "\n");
}

const MALFORMED: [&str; 20] = [
    "",
    " ",
    "25000000",
    "25000000 ",
    " 9600",
    "25000000 9600 ",
    " 25000000 9600",
    "25000000  9600",
    "25000000 9600 1",
    "25000000\t9600",
    "25000000,9600",
    "25000000 9600\r",
    "25000000 +9600",
    "-1 9600",
    "25e6 9600",
    "0x10 9600",
    "25000000 96O0",
    "25000000 4294967296",
    "4294967296 9600",
    "25000000 18446744073709561216",
];

#[test]
fn malformed_lines() {
    for line in MALFORMED {
        assert_eq!(Case::of_line(line.as_bytes()), None, "{line:?}");
        let mut output = Vec::new();
        let input = format!("25000000 9600\n{line}\n25000000 9600\n");
        assert!(program(input.as_bytes(), &mut output).is_err(), "{line:?}");
        assert_eq!(output, b"0 32 81 4693 0\n", "{line:?}");
    }
    assert!(program(b"25000000 \xFF9600\n", &mut Vec::new()).is_err());
}

// ---------------------------------------------------------------------------
// The fitters' program
// ---------------------------------------------------------------------------

/// What `rate` prints, with the clock's word first.
fn printed(words: &[&[u8]]) -> Vec<u8> {
    let command_line = CommandLine {
        clock: words[0].to_vec(),
        rates: words[1..].iter().map(|word| word.to_vec()).collect(),
    };
    command_line.printed()
}

fn assert_printed(words: &[&[u8]], text: &[u8]) {
    let printed = printed(words);
    let (left, right) = (printed.escape_ascii(), text.escape_ascii());
    assert_eq!(left.to_string(), right.to_string());
}

/// A line for each rate, in their order, also for one that comes again.
#[test]
fn a_line_for_each_rate() {
    assert_printed(&[b"25000000", b"9600"], b"9600 32 81 +4693\n");
    assert_printed(
        &[b"1843200", b"110", b"9600", b"1", b"0", b"110", b"230401"],
        b"110 128 131 -693\n9600 8 24 0\n1 refused 13\n0 refused 12\n110 128 131 -693\n\
          230401 refused 12\n",
    );
    // Cut to 0 from above and from below: no sign.
    assert_printed(&[b"1843201", b"230400"], b"230400 8 1 0\n");
    assert_printed(&[b"1843199", b"230400"], b"230400 8 1 0\n");
    assert_printed(&[b"1843198", b"230400"], b"230400 8 1 -1\n");
    assert_printed(&[b"1843202", b"230400"], b"230400 8 1 +1\n");
}

/// The usual rates. 1,843,200 divided by each of them but 110 is the divider
/// behind it.
#[test]
fn the_clock_alone() {
    let lines = [
        "50 512 72 0",      // 36,864
        "75 128 192 0",     // 24,576
        "110 128 131 -693", // 16,756.4
        "150 128 96 0",     // 12,288
        "300 32 192 0",     // 6,144
        "600 32 96 0",      // 3,072
        "1200 8 192 0",     // 1,536
        "1800 8 128 0",     // 1,024
        "2400 8 96 0",      // 768
        "3600 8 64 0",      // 512
        "4800 8 48 0",      // 384
        "7200 8 32 0",      // 256
        "9600 8 24 0",      // 192
        "14400 8 16 0",     // 128
        "19200 8 12 0",     // 96
        "28800 8 8 0",      // 64
        "38400 8 6 0",      // 48
        "57600 8 4 0",      // 32
        "115200 8 2 0",     // 16
        "230400 8 1 0",     // 8
    ];
    let text = lines.join("\n") + "\n";
    assert_printed(&[b"1843200"], text.as_bytes());
    assert_printed(&[b"0001843200"], text.as_bytes());
    let rates = lines.map(|line| line.split(' ').next().expect("a rate"));
    for clock in [
        "",
        "0",
        "999999",
        "60000001",
        "x",
        "-1",
        "18446744073711394816",
    ] {
        let refused = rates.map(|rate| format!("{rate} refused 12\n")).concat();
        assert_printed(&[clock.as_bytes()], refused.as_bytes());
    }
}

/// "Each line begins with the rate's word as it came." "leading zeros are fine"
#[test]
fn leading_zeros() {
    assert_printed(
        &[b"025000000", b"09600", b"0000000000000000000000009600"],
        b"09600 32 81 +4693\n0000000000000000000000009600 32 81 +4693\n",
    );
    let many = format!("{}9600", "0".repeat(1000));
    let clock = format!("{}25000000", "0".repeat(1000));
    assert_printed(
        &[clock.as_bytes(), many.as_bytes()],
        format!("{many} 32 81 +4693\n").as_bytes(),
    );
    assert_printed(&[b"25000000", b"000"], b"000 refused 12\n");
    assert_printed(&[b"1843200", b"0001"], b"0001 refused 13\n");
}

/// Words that are no decimal number, or a number of more than 32 bits.
const BAD_WORDS: [&[u8]; 34] = [
    b"",
    b" ",
    b"\n",
    b"+",
    b"-",
    b"+9600",
    b"-1",
    b"-9600",
    b" 9600",
    b"9600 ",
    b"9600\n",
    b"9600\r",
    b"\t9600",
    b"96 00",
    b"0x10",
    b"0x2580",
    b"1e6",
    b"9600.0",
    b"9_600",
    b"9,600",
    b"/",
    b":",
    b"960/",
    b":600",
    b"96OO",
    b"rate",
    b"\xFF",
    b"960\xB0",
    b"\xEF\xBC\x99600",
    b"4294967296",
    // 2^32 + 9600, 2^64, 2^64 + 9600 and 2^128 + 9600.
    b"4294976896",
    b"18446744073709551616",
    b"18446744073709561216",
    b"340282366920938463463374607431768221056",
];

#[test]
fn bad_words() {
    for word in BAD_WORDS {
        let line = [word, b" refused 12\n"].concat();
        assert_printed(&[b"25000000", word], &line);
        // The other lines stay as they are.
        assert_printed(
            &[b"25000000", b"9600", word, b"1"],
            &[b"9600 32 81 +4693\n", &line[..], b"1 refused 13\n"].concat(),
        );
        // 12 comes before 13, which 1 would have.
        assert_printed(
            &[word, b"9600", word, b"1"],
            &[b"9600 refused 12\n", &line[..], b"1 refused 12\n"].concat(),
        );
    }
    // The largest number of 32 bits, and others that are 1, 2 and 3 without the bits
    // above: 1,000,000 Hz would give 2 and 3.
    for digits in ["4294967295", "4294967297", "4294967298", "4294967299"] {
        let line = format!("{digits} refused 12\n");
        assert_printed(&[b"1000000", digits.as_bytes()], line.as_bytes());
    }
    for digits in ["4294967295", &"9".repeat(300), &format!("1{:0300}", 9600)] {
        let line = format!("{digits} refused 12\n");
        assert_printed(&[b"25000000", digits.as_bytes()], line.as_bytes());
        assert_printed(&[digits.as_bytes(), b"9600"], b"9600 refused 12\n");
    }
}

// ---------------------------------------------------------------------------
// The rate-lines form
// ---------------------------------------------------------------------------

fn hexadecimal(bytes: &[u8]) -> String {
    bytes.iter().map(|byte| format!("{byte:02X}")).collect()
}

#[test]
fn answers_of_command_lines() {
    // 25000000, 9600, an empty word, +1 and 9600 with a newline behind it; then 0
    // alone, and an empty clock with 1200.
    let lines = "3235303030303030 39363030 - 2B31 393630300A\n30\n- 31323030";
    let mut output = Vec::new();
    fitters::program(lines.as_bytes(), &mut output).expect("well-formed lines");
    let first = b"9600 32 81 +4693\n refused 12\n+1 refused 12\n9600\n refused 12\n";
    let expected = [
        hexadecimal(first),
        hexadecimal(&printed(&[b"0"])),
        hexadecimal(b"1200 refused 12\n"),
    ];
    let expected = expected.join("\n") + "\n";
    assert_eq!(String::from_utf8(output).expect("hexadecimal"), expected);
    let mut output = Vec::new();
    fitters::program(b"", &mut output).expect("no line at all");
    assert_eq!(output, b"");
}

const MALFORMED_COMMAND_LINES: [&str; 14] = [
    "", " ", "30 ", " 30", "30  30", "3", "300", "3G", "2b", "--", "30 3-", "30\t30", "00",
    "30 3900",
];

#[test]
fn malformed_command_lines() {
    for line in MALFORMED_COMMAND_LINES {
        let of_line = CommandLine::of_line(line.as_bytes());
        assert_eq!(of_line, None, "{line:?}");
        let mut output = Vec::new();
        let input = format!("30 31\n{line}\n30 31\n");
        assert!(fitters::program(input.as_bytes(), &mut output).is_err());
        let expected = hexadecimal(b"1 refused 12\n") + "\n";
        assert_eq!(output, expected.as_bytes(), "{line:?}");
    }
}

// ---------------------------------------------------------------------------
// The command line
// ---------------------------------------------------------------------------

#[test]
fn the_command_line() {
    let served = run(&["rates"], b"25000000 9600\n1 1");
    assert_eq!(served.stdout, b"0 32 81 4693 0\n12 0 0 0 0\n");
    assert_eq!((served.status.code(), served.stderr.len()), (Some(0), 0));
    let malformed = run(&["rates"], b"1 1\n25000000\n1 1\n");
    assert_eq!(malformed.status.code(), Some(1));
    assert_eq!(malformed.stdout, b"12 0 0 0 0\n");
    assert!(String::from_utf8_lossy(&malformed.stderr).contains("25000000"));

    let served = run(&["rate-lines"], b"30 31\n");
    assert_eq!(served.stdout, b"3120726566757365642031320A\n");
    assert_eq!((served.status.code(), served.stderr.len()), (Some(0), 0));
    let malformed = run(&["rate-lines"], b"30 31\n30 4\n30 31\n");
    assert_eq!(malformed.status.code(), Some(1));
    assert_eq!(malformed.stdout, b"3120726566757365642031320A\n");
    assert!(String::from_utf8_lossy(&malformed.stderr).contains("30 4"));

    for mode in ["rates", "rate-lines"] {
        assert_eq!(run(&[mode], b"").stdout, b"");
        assert_eq!(run(&[mode, "more"], b"").status.code(), Some(1));
    }
    for mode in ["generate-rates", "generate-rate-words"] {
        assert_eq!(run(&[mode, "1"], b"").status.code(), Some(1));
        assert_eq!(run(&[mode, "1", "x"], b"").status.code(), Some(1));
    }
    let cases = run(&["generate-rates", "3", "1500"], b"").stdout;
    assert_eq!(cases, reference::generate::rates::cases(3, 1500));
    let lines = run(&["generate-rate-words", "3", "50"], b"").stdout;
    assert_eq!(lines, reference::generate::rate_words::command_lines(3, 50));
}
