//! Before anything is timed the two are held against each other: the same number and the same bytes, for good inputs and for
//! spoilt ones, so that the plain version is not fast by leaving out a check.

use crate::calls::Call;
use crate::damage::{damaged, thrown_crowd, thrown_nest, thrown_question, thrown_register};
use crate::damage::{two, without_link, CLASS_LINKS, REGISTER_LINKS};
use crate::dice::Dice;
use crate::shapes::Shape;

pub const ROOM: usize = 55_320;
const THROWN: usize = 4_000;
const CROWDS: usize = 1_000;
const SPOILT: usize = 100;

/// How many calls agreed, and how often each refusal was among them.
#[derive(Default)]
pub struct Agreement {
    pub calls: usize,
    pub refusals: [usize; 10],
    pub yes: usize,
    pub no: usize,
}

impl Agreement {
    pub fn reached(shapes: &[Shape]) -> Agreement {
        let mut agreement = Agreement::default();
        let mut dice = Dice(7);
        for shape in shapes {
            agreement.on_levels(&shape.register, &mut dice);
            for _ in 0..SPOILT {
                agreement.on_spoilt(&shape.register, &mut dice);
                agreement.on_nest(&shape.register, &mut dice);
            }
        }
        for _ in 0..THROWN {
            agreement.on_spoilt(&thrown_register(&mut dice), &mut dice);
        }
        for _ in 0..CROWDS {
            let crowd = thrown_crowd(&mut dice);
            agreement.on_spoilt(&crowd, &mut dice);
            agreement.on_nest(&crowd, &mut dice);
        }
        let all = agreement.refusals[1..]
            .iter()
            .chain([&agreement.yes, &agreement.no]);
        assert!(all.min() > Some(&0), "some answer never came");
        agreement
    }

    /// Both are called, each with a buffer of so many bytes.
    pub fn hold(&mut self, call: &Call, room: usize) -> (i32, Vec<u8>) {
        let (mut one, mut other) = (vec![0xa5; room], vec![0xa5; room]);
        let (plain, proved) = (call.plain(&mut one), call.proved(&mut other));
        assert_eq!(plain, proved, "the two say different things");
        assert!(one == other, "the two write different bytes");
        self.calls += 1;
        match plain {
            0 => self.no += 1,
            1 => self.yes += 1,
            refusal @ ..0 => self.refusals[refusal.unsigned_abs() as usize] += 1,
            _ => (),
        }
        (plain, one)
    }

    /// Every level and the least, middle and greatest caps: condensed, checked, asked.
    fn on_levels(&mut self, reg: &[u8], dice: &mut Dice) {
        for i in 1..=4 {
            for (mu, nu) in [(1, 1), (3, 7), (7, 15)] {
                let call = Call::Condense { i, mu, nu, reg };
                let (length, bytes) = self.hold(&call, ROOM);
                let sum = &bytes[..usize::try_from(length).expect("a good register is refused")];
                let (checked, _) = self.hold(&Call::Check { reg, sum }, 0);
                assert_eq!(checked, 1, "a summary is no abstraction of its register");
                for most in [2, 4, 8, 16, 32, 64] {
                    let q = &thrown_question(dice, most);
                    self.on_question(reg, sum, q, dice);
                }
            }
        }
    }

    /// Asked and listed, into room enough, exact and short.
    fn on_question(&mut self, reg: &[u8], sum: &[u8], q: &[u8], dice: &mut Dice) {
        for _ in 0..4 {
            let item = dice.throw(two(reg, 0) + 2) as u16;
            self.hold(&Call::AskRegister { reg, q, item }, 0);
            self.hold(&Call::AskSummary { sum, q, item }, 0);
        }
        let (length, _) = self.hold(&Call::List { sum, q }, 2_048);
        for room in [length, length - 1] {
            if let Ok(room) = usize::try_from(room) {
                self.hold(&Call::List { sum, q }, room);
            }
        }
    }

    /// A deep question, which may need every item for every entry.
    fn on_nest(&mut self, reg: &[u8], dice: &mut Dice) {
        let depth = 1 + dice.throw(63);
        let q = &thrown_nest(dice, depth);
        for item in [0, 1, 7, 49] {
            self.hold(&Call::AskRegister { reg, q, item }, 0);
        }
    }

    /// A register condensed by any level and caps into any room, and everything spoilt.
    fn on_spoilt(&mut self, good: &[u8], dice: &mut Dice) {
        let [i, mu, nu] = [6, 9, 17].map(|most| dice.throw(most) as u16);
        let reg = &damaged(good, dice);
        let (length, _) = self.hold(&Call::Condense { i, mu, nu, reg }, ROOM);
        if let Ok(length) = usize::try_from(length) {
            self.hold(&Call::Condense { i, mu, nu, reg }, length);
            self.hold(&Call::Condense { i, mu, nu, reg }, length - 1);
        }
        let [i, mu, nu] = [4, 7, 15].map(|most| 1 + dice.throw(most) as u16);
        let (spoilt, reg) = (reg, good);
        let (length, bytes) = self.hold(&Call::Condense { i, mu, nu, reg }, ROOM);
        let sum = &bytes[..length as usize];
        for reg in [spoilt, &without_link(reg, REGISTER_LINKS, dice)] {
            self.hold(&Call::Check { reg, sum }, 0);
        }
        let fewer = &without_link(sum, CLASS_LINKS, dice);
        self.hold(&Call::Check { reg, sum: fewer }, 0);
        for _ in 0..4 {
            let sum = &damaged(sum, dice);
            self.hold(&Call::Check { reg, sum }, 0);
            let most = dice.one_of(&[2, 4, 8, 64]);
            let q = thrown_question(dice, most);
            self.on_question(reg, sum, &q, dice);
            self.on_question(reg, sum, &damaged(&q, dice), dice);
        }
    }
}
