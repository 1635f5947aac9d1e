//! Numbers: each reads back as the same f32, bit for bit. In JSON a number is a string where it is below 2^-37 in size (0
//! apart), from 2^64 up, infinite or NaN; in text its bits stand beside it, and a decimal behind ~ is cut short.

use dovebolt::{BookBuilder, PaneChannel, Player, SheetBuilder};

use crate::json::{Object, Value};
use crate::program::{Ran, file, folder, run_command, words};

/// The bounds of numbers that have a decimal.
const LEAST: f32 = 1.0 / 137_438_953_472.0; // 2^-37
const BEYOND: f32 = 18_446_744_073_709_551_616.0; // 2^64

/// What `frames` prints of a sheet and a book with the pane Box.
fn frames(name: &str, sheet: &[u8], book: &[u8], options: &[&str]) -> Ran {
    let folder = folder(name);
    let sheet = file(&folder, "numbers.sheet", sheet);
    let book = file(&folder, "numbers.book", book);
    let files = ["frames".as_ref(), sheet.as_os_str(), book.as_ref()];
    let ran = run_command(words(&files).arg("0").args(options));
    assert_eq!((ran.status, ran.err.as_str()), (0, ""));
    ran
}

fn box_book() -> Vec<u8> {
    let mut book = BookBuilder::new();
    book.pane("Box");
    book.build().unwrap()
}

/// A channel that goes through these values, one a frame.
fn sheet_of(values: &[f32]) -> Vec<u8> {
    let mut sheet = SheetBuilder::new();
    let animation = sheet.animation(values.len().try_into().unwrap());
    let channel = PaneChannel::TranslateX;
    animation.pane("Box").constant(channel, values);
    sheet.build().unwrap()
}

/// The objects that have the channel's number.
fn printed(name: &str, values: &[f32]) -> Vec<Object> {
    let ran = frames(name, &sheet_of(values), &box_book(), &["--json"]);
    let objects = ran.objects().into_iter();
    objects.filter(|object| object.has("number")).collect()
}

fn read_back(name: &str, values: &[f32]) {
    let printed = printed(name, values);
    assert_eq!(printed.len(), values.len());
    for (frame, (object, x)) in printed.iter().zip(values).enumerate() {
        assert_eq!(
            (object.count("frame"), object.text("channel")),
            (frame, "translate_x")
        );
        let back = object.float("number");
        assert_eq!(back.to_bits(), x.to_bits(), "{x:e} is printed {object:?}");
        let size = x.abs();
        let is_text = (size != 0.0 && size < LEAST) || size >= BEYOND;
        let value = object.get("number").unwrap();
        assert_eq!(matches!(value, Value::Text(_)), is_text, "{x:e}: {value:?}");
    }
}

/// The number itself, its neighbours, and all three with a minus.
fn around(x: f32) -> impl Iterator<Item = f32> {
    let near = [x.next_down(), x, x.next_up()];
    near.into_iter()
        .flat_map(|x| [x, -x])
        .filter(|x| x.is_finite())
}

/// Numbers that have no short decimal, or are at the edge of what has one.
fn ugly() -> Vec<f32> {
    let ugly = [
        0.0,
        0.1,
        1.0 / 3.0,
        1e-10,
        123_456.79,
        16_777_217.0,
        LEAST,
        LEAST / 2.0,
        f32::MAX,
        f32::MIN_POSITIVE,
        f32::from_bits(1),
        BEYOND,
        BEYOND / 2.0,
        0.5,
        47.99,
        255.0,
        1e7,
        9_999_999.0,
        16_777_216.0,
        1e9,
        8_388_607.5,
        4_194_303.8,
        1e-3,
        1e-6,
        0.000_000_5,
        1.234_567_9,
        1e19,
        1e20,
    ];
    ugly.into_iter().flat_map(around).collect()
}

#[test]
fn ugly_numbers() {
    let values = ugly();
    let minus_zero = (-0.0_f32).to_bits();
    assert!(values.iter().any(|x| x.to_bits() == minus_zero));
    read_back("ugly_numbers", &values);
}

#[test]
fn ugly_numbers_as_text() {
    let values = ugly();
    let ran = frames("ugly_text", &sheet_of(&values), &box_book(), &[]);
    let lines = ran.lines().into_iter();
    let told = Vec::from_iter(lines.filter_map(|line| line.split_once(" translate_x ")));
    assert_eq!(told.len(), values.len());
    let mut cut = 0;
    for ((_, text), x) in told.iter().zip(&values) {
        let (decimal, bits) = text.split_once(' ').unwrap();
        assert_eq!(bits, format!("0x{:08X}", x.to_bits()));
        let Some(about) = decimal.strip_prefix('~') else {
            let back: f32 = decimal.parse().unwrap();
            assert_eq!(back.to_bits(), x.to_bits(), "{text}");
            continue;
        };
        cut += 1;
        let about = about
            .trim_end_matches('+')
            .replace("2^64", "18446744073709551616");
        let about: f64 = about.parse().unwrap();
        let (size, least) = (f64::from(x.abs()), about.abs());
        let near = size <= least + 0.001 || least == f64::from(BEYOND);
        assert!(least <= size && near, "{text}");
    }
    assert!(0 < cut && cut < values.len());
}

/// A curve between numbers so large that it gives infinities and NaNs.
#[test]
fn infinite_and_nan() {
    let mut sheet = SheetBuilder::new();
    let keys = [(0.0, 3e38, 3e38), (9.0, -3e38, 3e38), (18.0, 3e38, -3e38)];
    let channel = PaneChannel::TranslateX;
    sheet.animation(19).pane("Box").hermite(channel, &keys);
    let (sheet, book) = (sheet.build().unwrap(), box_book());
    let ran = frames("infinite", &sheet, &book, &["--json"]);
    let objects = ran.objects().into_iter();
    let objects = Vec::from_iter(objects.filter(|object| object.has("number")));
    assert_eq!(objects.len(), 19);
    let (mut player, keys) = Player::load(&sheet).unwrap();
    let mut seen = Vec::new();
    for (object, frame) in objects.iter().zip(0_u8..) {
        player.pose(&sheet, Some(0), frame.into()).unwrap();
        let all = player.read_all(&sheet, &book, &keys).unwrap();
        let (x, told) = (all.get(0).unwrap(), object.float("number"));
        let same = told.to_bits() == x.to_bits() || told.is_nan() && x.is_nan();
        assert!(same, "frame {frame} is {x}, told as {told}");
        if !x.is_finite() {
            seen.push(object.text("number").to_owned());
        }
    }
    assert!(!seen.is_empty());
    assert!(
        seen.iter()
            .all(|text| ["inf", "-inf", "nan"].contains(&&**text))
    );
}

#[test]
fn minus_zero_has_its_sign() {
    let printed = printed("minus_zero", &[-0.0, 0.0]);
    let number = |n: usize| printed[n].get("number").cloned();
    assert_eq!(number(0), Some(Value::Number("-0.0".into())));
    assert_eq!(number(1), Some(Value::Number("0".into())));
}

/// Patterns of every exponent, from a simple generator.
#[test]
fn many_numbers() {
    let mut state = 2_463_534_242_u32;
    let patterns = std::iter::repeat_with(|| {
        state ^= state << 13;
        state ^= state >> 17;
        state ^= state << 5;
        f32::from_bits(state)
    });
    let finite = patterns.filter(|x| x.is_finite());
    read_back("many_numbers", &Vec::from_iter(finite.take(1_024)));
    // Half of these patterns have a string; these all have a decimal.
    let mut state = 1_u32;
    let decimals = std::iter::repeat_with(|| {
        state = state.wrapping_mul(1_664_525).wrapping_add(1_013_904_223);
        let exponent = 90 + state % 101; // 2^-37 to 2^63
        f32::from_bits((exponent << 23) | (state >> 9))
    });
    read_back("many_decimals", &Vec::from_iter(decimals.take(2_048)));
}
