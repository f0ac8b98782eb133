//! The cases of the run at the limits: each limit of the document at its last accepted value and
//! one past it, in every call that it concerns, one line for each case. Four families, in this
//! order: limited, vast, lengthy, levelled.
//!
//! Letters and listings are those of asking and listing from a summary, answers of condensing are
//! those of condensing, and the letter of a check is what the check says. Questions are told by the
//! first two bytes of each entry; bytes three and four are 0. A is register A, and SUM is its
//! summary at 1 1 1. In the register of the limits, marks of item x are x, and link k goes from
//! item k / 2 by label 0 to item k mod 2.
//!
//! Lines. A family's name, the numbers told here, then answers, letters and listings in the order
//! told; letters stand together without a blank. Numbers are decimal, words are parted by one
//! blank, and a line feed ends every line. Of the numbers behind a family's name the first turns
//! slowest, the last fastest.
//!   limited   n of 1024, 1025, m of 2048, 2049: the register of the limits with n items and m
//!             links. FULL is the summary of that with 1024 items and 2048 links at 1 1 1. The
//!             answer of condensing the register at 4 7 15 into 55,328 bytes; then four letters: of
//!             the check of FULL against the register, and of asking the register 16 1, 0 0 at
//!             items 0, 1023, 1024.
//!   vast      c of 1024, 1025, n of 1024, 1025, e of 2048, 2049: a contractor's summary. Level and
//!             caps are 1 7 15. There is one group. There are c classes, class k with marks k,
//!             group 0, count 1, and n items, item x of class x mod c. Class links, for k from 0 to
//!             2047: from class k / 2 by label 0 to class k mod 2; where e is 2049 one more at the
//!             end, from class 1023 by label 1 to class 0. Rows, each against group 0 and
//!             ascending: out by label 0 from each class 0 to 1023, count 2; in by label 0 at
//!             classes 0 and 1, count 8; where e is 2049 also out by label 1 at class 1023, count
//!             1, and in by label 1 at class 0, count 1. Counts and offsets in the header are
//!             exact. Four letters: of the check against the register of the limits with 1024 items
//!             and 2048 links, and of asking the summary 16 2, 0 0 at items 0, 1023, 1024; then the
//!             listing of 16 2, 0 0 and that of 32 8, 0 0, each into 2,056 bytes.
//!   lengthy   a number of entries, 63 to 66. The question of so many entries less one 2 0, and
//!             then 1 252. Six letters: of asking A at items 0, 5, 6, and of asking SUM at items 0,
//!             5, 6; then the listing from SUM into 32 bytes.
//!   levelled  level 0 to 6. SUM is taken with its first field become that level. The answer of
//!             condensing A at that level, caps 1 1, into 200 bytes; three letters: of the check of
//!             that file against A, and of asking it 16 1, 1 4 at items 2 and 0; then the listing
//!             from it of the question of so many entries 16 1 as the level tells, and then 0 0,
//!             into 32 bytes.

use crate::bytes::with_number;
use crate::checking::summary_of_a;
use crate::condensing;
use crate::judging::paired_register;
use crate::link::{Direction, Link, Way};
use crate::listing::{self, question_of, AT_LEAST_1_OUT, NOT, NOT_FAILED, TRUE};
use crate::numbers::{Class, Group};
use crate::register::{MOST_ITEMS, MOST_LINKS};
use crate::shapes::register_a;
use crate::summary::{ClassEntry, Row, Summary};
use crate::trial::Trial;

pub fn run(trial: &mut Trial) {
    limited(trial);
    vast(trial);
    lengthy(trial);
    levelled(trial);
}

/// "1,024 and 1,025 items; 2,048 and 2,049 links", in a register.
fn limited(trial: &mut Trial) {
    let full = trial.make(&paired_register(1_024, 2_048).write(), (1, 1, 1));
    let question = question_of(&[AT_LEAST_1_OUT, TRUE]);
    for n in [1_024, 1_025] {
        for m in [2_048, 2_049] {
            let register = paired_register(n, m).write();
            trial.text(&format!("limited {n} {m} "));
            trial.condense(&register, (4, 7, 15), condensing::ROOM);
            trial.text(" ");
            trial.check(&register, &full);
            for item in [0, 1_023, 1_024] {
                trial.ask_register(&register, &question, item..item + 1);
            }
            trial.end_line();
        }
    }
}

/// The same in a summary, where the classes have a limit too: "c, n ≤ 1,024, r ≤ 4,096, e ≤ 2,048".
fn vast(trial: &mut Trial) {
    let register = paired_register(1_024, 2_048).write();
    let two_out = question_of(&[(16, 2), TRUE]);
    let eight_in = question_of(&[(32, 8), TRUE]);
    for c in [1_024, 1_025] {
        for n in [1_024, 1_025] {
            for e in [2_048, 2_049] {
                let summary = contractors_summary(c, n, e).write();
                trial.text(&format!("vast {c} {n} {e} "));
                trial.check(&register, &summary);
                for item in [0, 1_023, 1_024] {
                    trial.ask_summary(&summary, &two_out, item..item + 1);
                }
                for question in [&two_out, &eight_in] {
                    trial.text(" ");
                    trial.list(&summary, question, listing::ROOM);
                }
                trial.end_line();
            }
        }
    }
}

/// A summary of c classes in one group, n items and e class links; with 1,024, 1,024 and 2,048 that
/// of the register of the limits, as a contractor may propose it.
pub fn contractors_summary(c: usize, n: usize, e: usize) -> Summary {
    let class = |marks| ClassEntry {
        marks,
        group: Group(0),
        count: 1,
    };
    let one_link_more = e > MOST_LINKS;
    Summary {
        level: 1,
        neighbour_cap: 7,
        class_cap: 15,
        group_count: 1,
        classes: (0..c as u32).map(class).collect(),
        rows: contractors_rows(one_link_more),
        class_links: contractors_class_links(one_link_more),
        map: (0..n).map(|x| Class(x % c)).collect(),
    }
}

const LAST: usize = MOST_ITEMS - 1;

fn contractors_class_links(one_link_more: bool) -> Vec<Link<Class>> {
    let link = |source, label, target| Link {
        source: Class(source),
        label,
        target: Class(target),
    };
    let mut links: Vec<_> = (0..MOST_LINKS).map(|k| link(k / 2, 0, k % 2)).collect();
    if one_link_more {
        links.push(link(LAST, 1, 0));
    }
    links
}

/// Within a class, out comes before in.
fn contractors_rows(one_link_more: bool) -> Vec<Row> {
    let mut rows = Vec::new();
    let mut row = |class, direction, label, count| {
        rows.push(Row {
            class: Class(class),
            way: Way::new(direction, label),
            group: Group(0),
            count,
        });
    };
    for class in 0..=LAST {
        row(class, Direction::Out, 0, 2);
        if one_link_more && class == LAST {
            row(class, Direction::Out, 1, 1);
        }
        if class < 2 {
            row(class, Direction::In, 0, 8);
        }
        if one_link_more && class == 0 {
            row(class, Direction::In, 1, 1);
        }
    }
    rows
}

/// "64 and 65 entries."
fn lengthy(trial: &mut Trial) {
    let a = register_a().write();
    let sum = trial.make(&a, (1, 1, 1));
    for entries in 63..=66 {
        let question = question_of(&[vec![NOT; entries - 1], vec![NOT_FAILED]].concat());
        trial.text(&format!("lengthy {entries} "));
        for item in [0, 5, 6] {
            trial.ask_register(&a, &question, item..item + 1);
        }
        for item in [0, 5, 6] {
            trial.ask_summary(&sum, &question, item..item + 1);
        }
        trial.text(" ");
        trial.list(&sum, &question, listing::SMALL_ROOM);
        trial.end_line();
    }
}

/// "Level 0, 4, 5", and the others.
fn levelled(trial: &mut Trial) {
    let a = register_a().write();
    let out_to_failed = question_of(&[AT_LEAST_1_OUT, (1, 4)]);
    for level in 0..=6 {
        let sum = with_number(&summary_of_a().write(), 0, level);
        let as_deep = question_of(&[vec![AT_LEAST_1_OUT; level], vec![TRUE]].concat());
        trial.text(&format!("levelled {level} "));
        trial.condense(&a, (level, 1, 1), condensing::SMALL_ROOM);
        trial.text(" ");
        trial.check(&a, &sum);
        for item in [2, 0] {
            trial.ask_summary(&sum, &out_to_failed, item..item + 1);
        }
        trial.text(" ");
        trial.list(&sum, &as_deep, listing::SMALL_ROOM);
        trial.end_line();
    }
}
