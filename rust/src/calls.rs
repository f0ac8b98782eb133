//! The five calls of the proved library over slices: each takes any bytes, and gives an answer or a
//! refusal.

use crate::bounded::{ClassCap, Level, NeighbourCap};
use crate::bytes::two;
use crate::names::Item;
use crate::native;
use crate::refusal::Refusal;
use crate::{LIST_MOST, SUMMARY_MOST};

/// The summary of a register: items with like marks and like surroundings, `level` links out, form
/// one class; neighbours are counted up to `neighbour_cap`, and the items of a class up to
/// `class_cap`. The bytes are exactly those that the definitions name. [`Summary`](crate::Summary)
/// reads them.
///
/// # Errors
///
/// [`Refusal::Header`] (1), [`Refusal::Size`] (2) or [`Refusal::Link`] (3) where the register is
/// not accepted. It is judged in the order: under 12 bytes (1), then 2, then the rest of 1, then 3.
///
/// ```
/// use hestovane::{condense, ClassCap, Level, NeighbourCap, Refusal, Register};
///
/// let (level, near, class) = (Level::of(2), NeighbourCap::of(3), ClassCap::of(7));
/// let summary = condense(&Register::new().to_bytes(), level, near, class)?;
/// assert_eq!(summary.len(), 24);
/// assert_eq!(condense(b"no register", level, near, class), Err(Refusal::Header));
/// # Ok::<(), Refusal>(())
/// ```
pub fn condense(
    register: &[u8],
    level: Level,
    neighbour_cap: NeighbourCap,
    class_cap: ClassCap,
) -> Result<Vec<u8>, Refusal> {
    let mut room = vec![0; SUMMARY_MOST];
    let summary = condense_into(register, level, neighbour_cap, class_cap, &mut room)?;
    Ok(summary.to_vec())
}

/// The same into a lent buffer: gives the part of it that is the summary, and leaves the rest as it
/// was. [`SUMMARY_MOST`] bytes are always enough.
///
/// # Errors
///
/// As for [`condense`]; then [`Refusal::Room`] (9) where the buffer is shorter than the summary. A
/// refusal changes no byte of it.
///
/// ```
/// use hestovane::{condense_into, ClassCap, Level, NeighbourCap, Refusal, Register};
///
/// let (level, near, class) = (Level::of(2), NeighbourCap::of(3), ClassCap::of(7));
/// let register = Register::new().to_bytes();
/// let mut room = [0; 100];
/// assert_eq!(condense_into(&register, level, near, class, &mut room)?.len(), 24);
/// assert_eq!(condense_into(&register, level, near, class, &mut room[..23]), Err(Refusal::Room));
/// # Ok::<(), Refusal>(())
/// ```
pub fn condense_into<'a>(
    register: &[u8],
    level: Level,
    neighbour_cap: NeighbourCap,
    class_cap: ClassCap,
    out: &'a mut [u8],
) -> Result<&'a [u8], Refusal> {
    let [i, near, class] =
        [level.number(), neighbour_cap.number(), class_cap.number()].map(u16::from);
    let written = length(native::condense(i, near, class, register, out), out)?;
    Ok(&out[..written])
}

/// Whether a summary, whoever made it, is an abstraction of the register: yes exactly when item
/// counts agree, each item has its class's marks, class counts and class links are right, and every
/// item has the neighbours that its class's rows state. Any grouping and numbering may be proposed,
/// and the level field is not judged.
///
/// # Errors
///
/// 1, 2 or 3 as for [`condense`]; then [`Refusal::Summary`] (6) where the summary is not well
/// formed.
///
/// ```
/// use hestovane::{check, condense, ClassCap, Level, Mark, NeighbourCap, Register};
///
/// let mut register = Register::new();
/// register.add_item([Mark::of(1)])?;
/// let (level, near, class) = (Level::of(2), NeighbourCap::of(3), ClassCap::of(7));
/// let summary = condense(&register.to_bytes(), level, near, class)?;
/// assert!(check(&register.to_bytes(), &summary)?);
///
/// register.add_item([Mark::of(1)])?;
/// assert!(!check(&register.to_bytes(), &summary)?);
/// # Ok::<(), Box<dyn std::error::Error>>(())
/// ```
pub fn check(register: &[u8], summary: &[u8]) -> Result<bool, Refusal> {
    yes_or_no(native::check(register, summary))
}

/// Whether a question holds at an item of a register. Neighbours are counted exactly, and questions
/// of any depth are answered.
///
/// # Errors
///
/// 1, 2 or 3 as for [`condense`]; then [`Refusal::Question`] (5) where the question is malformed;
/// then [`Refusal::Item`] (8) where no item has that number.
///
/// ```
/// use hestovane::{ask_register, Item, Mark, Question, Refusal, Register};
///
/// const PASSED: Mark = Mark::of(3);
/// const FAILED: Mark = Mark::of(4);
///
/// let mut register = Register::new();
/// let hook = register.add_item([])?;
/// let bytes = register.to_bytes();
/// assert!(ask_register(&bytes, Question::lacks(FAILED).as_bytes(), hook)?);
/// assert!(!ask_register(&bytes, Question::has(PASSED).as_bytes(), hook)?);
///
/// let no_item = Item::new(1);
/// let asked = ask_register(&bytes, Question::always().as_bytes(), no_item);
/// assert_eq!(asked, Err(Refusal::Item));
/// # Ok::<(), Box<dyn std::error::Error>>(())
/// ```
pub fn ask_register(register: &[u8], question: &[u8], item: Item) -> Result<bool, Refusal> {
    yes_or_no(native::ask_register(register, question, item.number()))
}

/// Whether a question holds at an item of a summary, that is at the item's class. From a summary
/// that [`condense`] made, it is the register's own answer.
///
/// # Errors
///
/// [`Refusal::Summary`] (6) where the summary is not well formed; then [`Refusal::Question`] (5)
/// where the question is malformed; then [`Refusal::Beyond`] (7) where it is deeper than the
/// summary's level or has a threshold above its neighbour cap plus one; then [`Refusal::Item`] (8)
/// where no item has that number.
///
/// ```
/// use hestovane::{ask_summary, condense, ClassCap, Level, Mark, NeighbourCap, Question, Register};
///
/// const FAILED: Mark = Mark::of(4);
///
/// let mut register = Register::new();
/// let hook = register.add_item([FAILED])?;
/// let (level, near, class) = (Level::of(2), NeighbourCap::of(3), ClassCap::of(7));
/// let summary = condense(&register.to_bytes(), level, near, class)?;
/// assert!(ask_summary(&summary, Question::has(FAILED).as_bytes(), hook)?);
/// # Ok::<(), Box<dyn std::error::Error>>(())
/// ```
pub fn ask_summary(summary: &[u8], question: &[u8], item: Item) -> Result<bool, Refusal> {
    yes_or_no(native::ask_summary(summary, question, item.number()))
}

/// The items where a question holds, from the summary alone, ascending. From a summary that
/// [`condense`] made, they are the register's items where it holds: each, once, and no other.
///
/// # Errors
///
/// [`Refusal::Summary`] (6) where the summary is not well formed; then [`Refusal::Question`] (5)
/// where the question is malformed; then [`Refusal::Beyond`] (7) where it is deeper than the
/// summary's level or has a threshold above its neighbour cap plus one.
///
/// ```
/// use hestovane::{condense, list, ClassCap, Level, Mark, NeighbourCap, Question, Register};
///
/// const FAILED: Mark = Mark::of(4);
///
/// let mut register = Register::new();
/// let failed = register.add_item([FAILED])?;
/// let unmarked = register.add_item([])?;
/// let (level, near, class) = (Level::of(2), NeighbourCap::of(3), ClassCap::of(7));
/// let summary = condense(&register.to_bytes(), level, near, class)?;
/// assert_eq!(list(&summary, Question::has(FAILED).as_bytes())?, [failed]);
/// assert_eq!(list(&summary, Question::lacks(FAILED).as_bytes())?, [unmarked]);
/// # Ok::<(), Box<dyn std::error::Error>>(())
/// ```
pub fn list(summary: &[u8], question: &[u8]) -> Result<Vec<Item>, Refusal> {
    let mut room = [0; LIST_MOST];
    let items = list_into(summary, question, &mut room)?;
    Ok(items.collect())
}

/// The same by way of a lent buffer, two bytes an item, without memory of its own: gives the items,
/// read back from the buffer, and leaves the rest of it as it was. [`LIST_MOST`] bytes are always
/// enough.
///
/// # Errors
///
/// As for [`list`]; then [`Refusal::Room`] (9) where the buffer is shorter than the list. A refusal
/// changes no byte of it.
///
/// ```
/// use hestovane::{
///     condense, list_into, ClassCap, Level, NeighbourCap, Question, Refusal, Register,
/// };
///
/// let mut register = Register::new();
/// register.add_item([])?;
/// register.add_item([])?;
/// let (level, near, class) = (Level::of(2), NeighbourCap::of(3), ClassCap::of(7));
/// let summary = condense(&register.to_bytes(), level, near, class)?;
///
/// let question = Question::always();
/// let mut room = [0; 4];
/// for item in list_into(&summary, question.as_bytes(), &mut room)? {
///     println!("{item}");
/// }
/// assert_eq!(room, [0, 0, 0, 1]);
/// let refused = list_into(&summary, question.as_bytes(), &mut room[..3]).err();
/// assert_eq!(refused, Some(Refusal::Room));
/// # Ok::<(), Box<dyn std::error::Error>>(())
/// ```
pub fn list_into<'a>(
    summary: &[u8],
    question: &[u8],
    out: &'a mut [u8],
) -> Result<impl ExactSizeIterator<Item = Item> + 'a, Refusal> {
    let written = length(native::list(summary, question, out), out)?;
    let numbers = out[..written].chunks_exact(2);
    Ok(numbers.map(|number| Item::new(two(number, 0))))
}

/// 1 for yes, 0 for no, or minus the number of the refusal.
fn yes_or_no(code: i32) -> Result<bool, Refusal> {
    match code {
        1 => Ok(true),
        0 => Ok(false),
        _ => Err(Refusal::of_code(code)),
    }
}

/// The length written into the buffer, or minus the number of the refusal. That the length is
/// within the buffer is proved of the library; that this archive is that library is not, so it is
/// looked at.
fn length(code: i32, out: &[u8]) -> Result<usize, Refusal> {
    let Ok(length) = usize::try_from(code) else {
        return Err(Refusal::of_code(code));
    };
    let room = out.len();
    assert!(
        length <= room,
        "a call says that it wrote {length} bytes into {room}: \
         this is not the archive that the crate was made for"
    );
    Ok(length)
}
