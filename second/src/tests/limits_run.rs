//! The printed cases of the run at the limits: every line, from what the document says and what can
//! be counted beforehand.

use super::listing::{refused, written};
use super::*;
use crate::lent::filled_buffer;
use crate::limits_run::{self, contractors_summary};
use crate::said::hash;

fn printed_lines_of(family: &str) -> Vec<String> {
    let text = printed_by(limits_run::run, &[]);
    let own = text
        .lines()
        .filter(|line| line.split(' ').next() == Some(family));
    own.map(str::to_string).collect()
}

/// An answer in three words.
fn words((said, hash): (String, u32)) -> String {
    format!("{said} {hash}")
}

/// That file in a buffer of that length.
fn wrote(file: &[u8], room: usize) -> String {
    let buffer = [file, &filled_buffer(room)[file.len()..]].concat();
    words((format!("wrote {}", file.len()), hash(&buffer)))
}

#[test]
fn four_families_and_no_more() {
    let text = printed_by(limits_run::run, &[]);
    let families = ["limited", "vast", "lengthy", "levelled"];
    let lines = families.iter().flat_map(|family| printed_lines_of(family));
    assert!(text.lines().eq(lines));
}

/// Every item has marks of its own and so is a class and a group for itself; each has a link to
/// item 0 and one to item 1, and so those two have one from each. No limit is left any room.
fn summary_of_the_limits() -> Vec<u8> {
    let mut numbers = vec![4, 7, 15, 1_024, 1_024, 4_096, 2_048, 1_024];
    numbers.extend([24, 8_216, 40_984, 53_272]);
    (0..1_024).for_each(|k| numbers.extend([0, k, k, 1]));
    for class in 0..1_024 {
        numbers.extend([class, 0, 0, 1, class, 0, 1, 1]);
        if class < 2 {
            (0..1_024).for_each(|group| numbers.extend([class, 16, group, 1]));
        }
    }
    (0..2_048).for_each(|k| numbers.extend([k / 2, 0, k % 2]));
    numbers.extend(0..1_024);
    two_bytes_each(&numbers)
}

#[test]
fn limited_known_beforehand() {
    let wrote = wrote(&summary_of_the_limits(), 55_328);
    let refused = words(refused(Refusal::RegisterLimits, 55_328));
    let expected = [
        format!("limited 1024 2048 {wrote} yyy8"),
        format!("limited 1024 2049 {refused} 2222"),
        format!("limited 1025 2048 {refused} 2222"),
        format!("limited 1025 2049 {refused} 2222"),
    ];
    assert_eq!(printed_lines_of("limited"), expected);
}

/// With 1,024 classes, 1,024 items and 2,048 class links it is an abstraction: every item has two
/// neighbours out, and items 0 and 1 have more in than the cap. One more of anything is 6.
#[test]
fn vast_known_beforehand() {
    let everywhere: Vec<usize> = (0..1_024).collect();
    let two_out = words(written(&everywhere, 2_056));
    let eight_in = words(written(&[0, 1], 2_056));
    let refused = words(refused(Refusal::SummaryForm, 2_056));
    let mut expected = vec![format!("vast 1024 1024 2048 yyy8 {two_out} {eight_in}")];
    let one_more = [
        "1024 1024 2049",
        "1024 1025 2048",
        "1024 1025 2049",
        "1025 1024 2048",
        "1025 1024 2049",
        "1025 1025 2048",
        "1025 1025 2049",
    ];
    expected.extend(one_more.map(|numbers| format!("vast {numbers} 6666 {refused} {refused}")));
    assert_eq!(printed_lines_of("vast"), expected);
}

/// But for the limits, each of them is well formed: the rows are those that the class links ask
/// for.
#[test]
fn vast_for_its_counts_alone() {
    let mut one_more = contractors_summary(1_024, 1_024, 2_049);
    assert!(Summary::read(&one_more.write()).is_err());
    let rows = one_more.rows.len();
    one_more.class_links.remove(0);
    assert!(Summary::read(&one_more.write()).is_ok());
    assert_eq!(rows, 1_024 + 2 + 2);
    let lengths = [(1_024, 1_024, 2_048), (1_025, 1_025, 2_049)].map(|(c, n, e)| {
        let length = contractors_summary(c, n, e).write().len();
        length - (24 + 8 * c + 6 * e + 2 * n)
    });
    assert_eq!(lengths, [8 * 1_026, 8 * 1_028]);
}

/// 62 times not is no change, 63 times is not; literal −4 is at all but item 5.
#[test]
fn lengthy_known_beforehand() {
    let refused = words(refused(Refusal::QuestionForm, 32));
    let expected = [
        format!("lengthy 63 yn8yn8 {}", words(written(&[0, 1, 2, 3, 4], 32))),
        format!("lengthy 64 ny8ny8 {}", words(written(&[5], 32))),
        format!("lengthy 65 555555 {refused}"),
        format!("lengthy 66 555555 {refused}"),
    ];
    assert_eq!(printed_lines_of("lengthy"), expected);
}

/// From level 2 on, the four classes of A are its four groups too.
fn summary_of_a_at(level: usize) -> Vec<u8> {
    if level == 1 {
        return summary(1, 1, 1, &register_a());
    }
    let parts = [
        &[level, 1, 1, 4, 4, 4, 2, 6, 24, 56, 88, 100][..],
        &[0, 1, 0, 2, 0, 1, 1, 1, 0, 6, 2, 2, 0, 10, 3, 1],
        &[0, 0, 2, 1, 1, 0, 3, 1, 2, 16, 0, 1, 3, 16, 1, 1],
        &[0, 0, 2, 1, 0, 3],
        &[0, 0, 1, 2, 2, 3],
    ];
    two_bytes_each(&parts.concat())
}

/// "The level field is not judged" where it is in range, but it says how deep a question may be.
#[test]
fn levelled_known_beforehand() {
    let expected = |level| match level {
        1..=4 => {
            let wrote = wrote(&summary_of_a_at(level), 200);
            let hoists: &[usize] = if level == 1 { &[0, 1, 2] } else { &[] };
            let list = words(written(hoists, 32));
            format!("levelled {level} {wrote} yyn {list}")
        }
        _ => {
            let no_summary = words(refused(Refusal::LevelOrCaps, 200));
            let no_list = words(refused(Refusal::SummaryForm, 32));
            format!("levelled {level} {no_summary} 666 {no_list}")
        }
    };
    assert!(printed_lines_of("levelled")
        .into_iter()
        .eq((0..=6).map(expected)));
}
