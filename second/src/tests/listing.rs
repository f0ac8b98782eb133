//! The printed cases of asking and listing from a summary: how many lines each family has, the
//! letters and lists that the document settles, and what becomes of the lent buffer.

use super::*;
use crate::lent::filled_buffer;
use crate::listing;
use crate::said::{self, hash};
use std::collections::BTreeSet;
use std::sync::LazyLock;

/// A family's name, its lines, and how many numbers, listings and words of letters each has.
const FAMILIES: [(&str, usize, usize, usize, usize); 7] = [
    ("ordered", 8, 2, 3, 1),
    ("three", 156, 2, 0, 1),
    ("reached", 24, 2, 1, 1),
    ("counted", 56, 2, 1, 1),
    ("foreign", 176, 2, 1, 1),
    ("lent", 21, 1, 1, 0),
    ("found", 2_000, 1, 4, 2),
];

/// A listing is its first two words, and the hash.
struct Line {
    family: String,
    numbers: Vec<usize>,
    letters: Vec<String>,
    listings: Vec<(String, u32)>,
}

static LINES: LazyLock<Vec<Line>> = LazyLock::new(printed_lines);

fn printed_lines() -> Vec<Line> {
    let text = printed_by(listing::run, &[listing::FOUND]);
    text.lines().map(taken_apart).collect()
}

fn taken_apart(line: &str) -> Line {
    let words: Vec<&str> = line.split(' ').collect();
    let family = FAMILIES.iter().find(|(name, ..)| *name == words[0]);
    let (_, _, count, ..) = family.expect("a family first");
    let (numbers, mut rest) = words[1..].split_at(*count);
    let mut line = Line {
        family: words[0].to_string(),
        numbers: numbers.iter().map(|word| number(word)).collect(),
        letters: vec![],
        listings: vec![],
    };
    while let [word, behind @ ..] = rest {
        rest = behind;
        if let ("wrote" | "refused", [what, hash, behind @ ..]) = (*word, behind) {
            let hash = number(hash) as u32;
            line.listings.push((format!("{word} {what}"), hash));
            rest = behind;
        } else {
            line.letters.push(word.to_string());
        }
    }
    line
}

fn number(word: &str) -> usize {
    word.parse().expect("a number")
}

fn lines_of(family: &'static str) -> impl Iterator<Item = &'static Line> {
    LINES.iter().filter(move |line| line.family == family)
}

fn line(family: &'static str, numbers: &[usize]) -> &'static Line {
    let mut own = lines_of(family);
    own.find(|line| line.numbers == numbers).expect("printed")
}

/// The letters of each line of the family are what `expected` gives for the line's numbers.
fn assert_says(family: &'static str, expected: impl Fn(&[usize]) -> String) {
    for line in lines_of(family) {
        let expected = expected(&line.numbers);
        assert_eq!(line.letters, [expected], "{family} {:?}", line.numbers);
    }
}

/// The items in a buffer of that length: "a list is two bytes an item", and "bytes past that
/// length stay".
pub fn written(items: &[usize], room: usize) -> (String, u32) {
    let list = two_bytes_each(items);
    let rest = &filled_buffer(room)[list.len()..];
    let said = format!("wrote {}", list.len());
    (said, hash(&[&list, rest].concat()))
}

/// "A refusal returns its number only, and no lent byte changes."
pub fn refused(refusal: Refusal, room: usize) -> (String, u32) {
    let said = format!("refused {}", refusal.number());
    (said, hash(&filled_buffer(room)))
}

/// The items where the letter is yes.
fn yes_items(letters: &str) -> Vec<usize> {
    let yes = letters.match_indices('y');
    yes.map(|(item, _)| item).collect()
}

/// The letters alone settle the listing: a refusal that is not for the item number, or the items
/// where they say yes.
fn settled(letters: &str, room: usize) -> (String, u32) {
    match letters.as_bytes()[0] {
        b'5' => refused(Refusal::QuestionForm, room),
        b'6' => refused(Refusal::SummaryForm, room),
        b'7' => refused(Refusal::QuestionReach, room),
        _ => written(&yes_items(letters), room),
    }
}

#[test]
fn families_in_order_with_all_their_lines() {
    let expected = FAMILIES
        .iter()
        .flat_map(|(name, lines, numbers, listings, letters)| {
            vec![(*name, *numbers, *listings, *letters); *lines]
        });
    let printed = LINES.iter().map(|line| {
        let counts = (line.numbers.len(), line.listings.len(), line.letters.len());
        (line.family.as_str(), counts.0, counts.1, counts.2)
    });
    assert!(printed.eq(expected));
}

/// The first number turns slowest, the last fastest, and none is left out.
#[test]
fn numbers_ascend_through_all_there_are() {
    for (family, ..) in FAMILIES {
        assert!(lines_of(family).is_sorted_by(|a, b| a.numbers < b.numbers));
    }
    let ends = |family| {
        let numbers: Vec<&Vec<usize>> = lines_of(family).map(|line| &line.numbers).collect();
        (numbers[0].clone(), numbers[numbers.len() - 1].clone())
    };
    assert_eq!(ends("ordered"), (vec![0, 0], vec![1, 3]));
    assert_eq!(ends("three"), (vec![0, 0], vec![11, 12]));
    assert_eq!(ends("reached"), (vec![1, 0], vec![4, 5]));
    assert_eq!(ends("counted"), (vec![1, 1], vec![7, 8]));
    assert_eq!(ends("foreign"), (vec![0, 0], vec![21, 7]));
    assert_eq!(ends("lent"), (vec![0], vec![20]));
    assert_eq!(ends("found"), (vec![1], vec![2_000]));
}

/// "Ask a summary 6, 5, 7, 8; list from a summary 6, 5, 7, 9."
#[test]
fn ordered_in_the_order_of_the_document() {
    for line in lines_of("ordered") {
        let (letters, refusal) = match *line.numbers {
            [1, _] => ("66", Refusal::SummaryForm),
            [_, 1] => ("55", Refusal::QuestionForm),
            [_, 2 | 3] => ("77", Refusal::QuestionReach),
            _ => ("y8", Refusal::Room),
        };
        assert_eq!(line.letters, [letters]);
        let rooms = [10, 9, 0];
        let mut listings = rooms.map(|room| refused(refusal, room));
        if letters == "y8" {
            listings[0] = written(&[0, 1, 2, 3, 4], 10);
        }
        assert_eq!(line.listings, listings, "{:?}", line.numbers);
    }
}

fn assert_foreign(numbers: [usize; 2], letters: &str, listing: (String, u32)) {
    let line = line("foreign", &numbers);
    assert_eq!(line.letters, [letters], "{numbers:?}");
    assert_eq!(line.listings, [listing], "{numbers:?}");
}

/// The letters of the last question of a line of `three`, the one without a third entry.
fn last_of_three(first: usize, second: usize) -> &'static str {
    let letters = &line("three", &[first, second]).letters[0];
    &letters[letters.len() - 6..]
}

#[test]
fn p2_at_least_one_failed() {
    assert_foreign([0, 2], "nnynnn", written(&[2], 32));
}

#[test]
fn p3_lacking_failed_is_not_having_passed() {
    assert_eq!(last_of_three(3, 12), "yyyyyn");
    assert_eq!(last_of_three(2, 12), "nnnyyn");
    for line in lines_of("lent") {
        let listing = match line.numbers[0] {
            room @ 0..=9 => refused(Refusal::Room, room),
            room => written(&[0, 1, 2, 3, 4], room),
        };
        assert_eq!(line.listings, [listing], "{:?}", line.numbers);
    }
}

#[test]
fn p4_incoming_from_a_hoist() {
    assert_eq!(last_of_three(10, 1), "nnnyyy");
    assert_eq!(last_of_three(11, 1), "nnnnnn");
}

#[test]
fn p5_two_out_and_a_threshold_too_high() {
    assert_foreign([0, 5], "nnnnnn", written(&[], 32));
    assert_eq!(last_of_three(8, 0), "nnnnnn");
    assert_eq!(last_of_three(9, 0), "777777");
}

/// The other half of it, A itself, is no summary.
#[test]
fn p6_one_at_least_inside_another() {
    assert_foreign([0, 7], "777777", refused(Refusal::QuestionReach, 32));
    let letters = &line("three", &[7, 10]).letters[0];
    assert_eq!(letters[..24], "7".repeat(24));
    assert_eq!(letters[24..], "5".repeat(54));
}

/// What of P9 and P10 is asked of their hoist: "at least 2 out by 0, true" holds there alone.
fn assert_two_at_the_hoist(hooks: &[u32], neighbour_cap: usize) {
    let summary = summary(1, neighbour_cap, 1, &hoist_with(hooks));
    let question = [out_by(0, 2), TRUE].concat();
    let expected = format!("y{}", "n".repeat(hooks.len()));
    let asked = |item| said::letter(ask_summary(&summary, &question, Item(item)));
    let letters: String = (0..=hooks.len()).map(asked).collect();
    assert_eq!(letters, expected);
    let (said, hash) = written(&[0], 32);
    let listing = said::answer(32, &list_from_summary(&summary, &question, 32));
    assert_eq!(listing, format!("{said} {hash}"));
}

/// Eight neighbours under caps 1 to 7 are more than the cap, so that the row says one more than it;
/// a threshold of that reaches them, and one above is refused.
#[test]
fn p9_neighbours_above_the_cap() {
    assert_two_at_the_hoist(&[PASSED; 3], 1);
    assert_two_at_the_hoist(&[PASSED; 3], 2);
    for line in lines_of("counted") {
        let (cap, threshold) = (line.numbers[0], line.numbers[1]);
        let (letters, listing) = if threshold <= cap + 1 {
            ("yn", written(&[0], 32))
        } else {
            ("77", refused(Refusal::QuestionReach, 32))
        };
        assert_eq!(line.letters, [letters], "{:?}", line.numbers);
        assert_eq!(line.listings, [listing], "{:?}", line.numbers);
    }
}

#[test]
fn p10_one_and_one_are_two() {
    assert_two_at_the_hoist(&[PASSED, FAILED], 1);
}

/// So many items must follow in the chain, and no more than the level may be asked for.
#[test]
fn reached_known_beforehand() {
    assert_says("reached", |numbers| {
        let (level, depth) = (numbers[0], numbers[1]);
        let letter = |item| match item + depth {
            _ if depth > level => '7',
            0..=7 => 'y',
            _ => 'n',
        };
        (0..8).map(letter).collect()
    });
}

/// Where a group has classes of other kinds too, its lowest-numbered speaks for all: a passed hook
/// in 1 and 2, a hoist in 3 and 21. Under other numbers nothing changes.
#[test]
fn foreign_known_beforehand() {
    for number in 0..22 {
        match number {
            13 | 18 => {}
            14..=17 | 20 => {
                let refused = || refused(Refusal::SummaryForm, 32);
                (0..8).for_each(|q| assert_foreign([number, q], "666666", refused()));
            }
            _ => assert_foreign([number, 0], "yyyyyy", written(&[0, 1, 2, 3, 4, 5], 32)),
        }
    }
    for number in [1, 2, 3, 21] {
        assert_foreign([number, 2], "nnnnnn", written(&[], 32));
    }
    assert_foreign([4, 2], "nnynnn", written(&[2], 32));
    assert_foreign([9, 5], "yynnnn", written(&[0, 1], 32));
    assert_foreign([6, 7], "yyynnn", written(&[0, 1, 2], 32));
    assert_foreign([13, 0], "yyyyy8", written(&[0, 1, 2, 3, 4], 32));
    assert_foreign([18, 0], "888888", written(&[], 32));
}

/// Asking at every item and listing say the same.
#[test]
fn listed_as_asked() {
    for line in lines_of("reached").chain(lines_of("foreign")) {
        let expected = settled(&line.letters[0], 32);
        assert_eq!(
            line.listings,
            [expected],
            "{} {:?}",
            line.family,
            line.numbers
        );
    }
}

/// Where the summary answers, it says what the register says, and of a small register, all of
/// whose items are asked at, it lists exactly those where the register says yes.
#[test]
fn found_where_the_register_says_yes() {
    let mut lists = BTreeSet::new();
    for line in lines_of("found") {
        let [of_summary, of_register] = &line.letters[..] else {
            panic!("{:?}", line.numbers);
        };
        let (said, _) = &line.listings[0];
        if said.starts_with("wrote ") {
            assert_eq!(of_summary, of_register, "{:?}", line.numbers);
            if !line.numbers[0].is_multiple_of(100) {
                assert!(of_register.ends_with('8'), "{:?}", line.numbers);
                let expected = written(&yes_items(of_register), 2_056);
                assert_eq!(line.listings[0], expected, "{:?}", line.numbers);
                lists.insert(yes_items(of_register));
            }
        } else {
            assert_eq!(line.listings[0], settled(of_summary, 2_056));
            let refused_too = said == "refused 5";
            assert_eq!(of_register.starts_with('5'), refused_too);
        }
    }
    assert!(lists.contains(&vec![]) && lists.len() > 50);
}

/// Refused for the question's sake whatever the room, or written wherever there is room.
#[test]
fn found_where_there_is_room() {
    let mut first_said = BTreeSet::new();
    for line in lines_of("found") {
        let said: Vec<&str> = line
            .listings
            .iter()
            .map(|(said, _)| said.as_str())
            .collect();
        let short = match said[0] {
            "wrote 0" => "wrote 0",
            wrote if wrote.starts_with("wrote ") => "refused 9",
            refused => refused,
        };
        assert_eq!(said, [said[0], short, said[0], said[0]]);
        first_said.insert(said[0]);
    }
    first_said.retain(|said| said.starts_with("refused "));
    assert_eq!(first_said, BTreeSet::from(["refused 5", "refused 7"]));
}

#[test]
fn every_letter_is_given() {
    let letters = LINES.iter().flat_map(|line| &line.letters);
    let given: BTreeSet<char> = letters.flat_map(|letters| letters.chars()).collect();
    assert_eq!(given, BTreeSet::from(['5', '6', '7', '8', 'n', 'y']));
}
