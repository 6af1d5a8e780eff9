// Bungero for programs in Rust: safe calls over the proved static library libexports.a, and in `raw` its C interface.
//
// Put this file into a program with `mod bungero;` and link with `-L DIRECTORY -l static=exports` (x86-64 Linux).
// Refusals come as `Err` with the paper's number, which `refusal` names: a `Refused`; a `RefusedList` with the place of
// a line in a list; a `RefusedPaste` with how many lines before it are kept; a `RefusedSheet` with the line of a sheet;
// a `RefusedEffect` with which of the seven it is; or a `RefusedWrite` with which of a sheet's six, where it is one.
// What bungero.h says of names, memory and the stack holds here too; to the stack come the copies of columns, 2 KB, and
// reports, 4 KB.
#![allow(dead_code, unused_imports)] // few programs use all of the calls

use std::fmt;
use std::mem::{align_of, offset_of, size_of};
use std::ops::Deref;

pub use raw::{Effects, Governing, GoverningRow, Line, Newtons, SheetDoubles, SheetEffects};

// The mark of the layout: a program with this file refers to it, so that it does not link with a library of other structs.
// Whoever changes a struct or a call gives the mark the next number, as bungero.h says.
#[used]
static LAYOUT: unsafe extern "C" fn() -> u64 = raw::bungero_layout_1;

/// The bytes of the buffer that `report_into` writes to; no report is longer than 3,960.
pub const REPORT_ROOM: usize = 4096;

/// The bytes of a buffer in which `write_into` has room for every sheet; none that it writes is longer than 10,371.
pub const SHEET_ROOM: usize = 12_288;

/// The most lines that a column holds.
pub const LINES: usize = 256;

/// The refusals, with the paper's numbers, in the order of its table.
pub mod refusal {
    /// No condition holds.
    pub const ACCEPTED: u64 = 0;
    /// Opening a member: code not 1 to 12.
    pub const CODE: u64 = 1;
    /// Entering a line: 256 lines held.
    pub const FULL: u64 = 2;
    /// Floor not 1 to 64, or a smaller number than the last accepted line's.
    pub const FLOOR: u64 = 3;
    /// Class not 1 to 3.
    pub const CLASS: u64 = 4;
    /// Load not 1 to 50,000.
    pub const LOAD: u64 = 5;
    /// Area not 1 to 200,000.
    pub const AREA: u64 = 6;
    /// Asking at a floor: no accepted line has that floor.
    pub const NO_SUCH_FLOOR: u64 = 7;
    /// An effect is not a whole number (NaN and infinities too).
    pub const NOT_WHOLE: u64 = 8;
    /// An effect is beyond ±1,000,000,000,000.
    pub const BEYOND_LIMIT: u64 = 9;
    /// A line of a sheet has not the form, is missing, or is left over.
    pub const FORM: u64 = 10;
    /// A sheet is longer than 32,768 bytes.
    pub const TOO_LONG: u64 = 11;
    /// Writing a sheet: the buffer is shorter than the text.
    pub const NO_ROOM: u64 = 12;
}

/// The C interface as it is: structs in C's layout and the calls, with the header's names but for its `bungero_`. A number is
/// the paper's, 0 where no condition holds.
pub mod raw {
    use super::{LINES, REPORT_ROOM};

    /// A line as a caller lends it: floor 1 to 64, class 1 to 3, load 1 to 50,000 N/m², tributary area 1 to 200,000 dm².
    #[repr(C)]
    #[derive(Clone, Copy, Debug, Default, PartialEq, Eq)]
    pub struct Line {
        pub floor: u64,
        pub use_class: u64,
        pub load: u64,
        pub area: u64,
    }

    /// What is known of a member beside its lines.
    #[repr(C)]
    #[derive(Clone, Copy, Debug, PartialEq, Eq)]
    pub struct Member {
        pub code: u8,
    }

    /// The places of a column's lines, each line as one number.
    pub type Places = [u64; LINES];

    /// A member and its accepted lines, only ever as these calls gave it.
    #[repr(C)]
    #[derive(Clone, Copy, Debug, PartialEq, Eq)]
    pub struct Column {
        pub member: Member,
        pub count: u16,
        pub held: Places,
    }

    /// What opening gives: the number, and the column.
    #[repr(C)]
    #[derive(Clone, Copy, Debug, PartialEq, Eq)]
    pub struct Opened {
        pub number: u64,
        pub column: Column,
    }

    /// What opening gives without the column: the number, and the member; of code 0 where it is refused.
    #[repr(C)]
    #[derive(Clone, Copy, Debug, PartialEq, Eq)]
    pub struct OpenedMember {
        pub number: u64,
        pub member: Member,
    }

    /// What entering gives: the number, and how many lines the column then holds.
    #[repr(C)]
    #[derive(Clone, Copy, Debug, PartialEq, Eq)]
    pub struct Entered {
        pub number: u64,
        pub count: u16,
    }

    /// What pasting gives: the number of the first refused line, how many lines of the list are kept, and how many lines the
    /// column then holds.
    #[repr(C)]
    #[derive(Clone, Copy, Debug, PartialEq, Eq)]
    pub struct Pasted {
        pub number: u64,
        pub kept: u16,
        pub count: u16,
    }

    /// What asking gives: the number; n, X in dm² and the figure in hundredths of a newton, 0 where refused.
    #[repr(C)]
    #[derive(Clone, Copy, Debug, PartialEq, Eq)]
    pub struct Figure {
        pub number: u64,
        pub floors: u64,
        pub influence: u64,
        pub figure: u64,
    }

    /// What reducing a load gives: the number, and R in N/m², 0 where refused.
    #[repr(C)]
    #[derive(Clone, Copy, Debug, PartialEq, Eq)]
    pub struct Reduced {
        pub number: u64,
        pub reduced: u64,
    }

    /// What the list call gives: the number, the place of the refused line, and n, X and the figure, 0 where refused.
    #[repr(C)]
    #[derive(Clone, Copy, Debug, PartialEq, Eq)]
    pub struct Listed {
        pub number: u64,
        pub place: u64,
        pub floors: u64,
        pub influence: u64,
        pub figure: u64,
    }

    /// The seven effects in newtons, as doubles: D, L, Lr, S, R, W, E.
    #[repr(C)]
    #[derive(Clone, Copy, Debug, Default, PartialEq)]
    pub struct Effects {
        pub dead: f64,
        pub live: f64,
        pub roof: f64,
        pub snow: f64,
        pub rain: f64,
        pub wind: f64,
        pub quake: f64,
    }

    /// The seven effects in whole newtons.
    #[repr(C)]
    #[derive(Clone, Copy, Debug, Default, PartialEq, Eq)]
    pub struct Newtons {
        pub dead: i64,
        pub live: i64,
        pub roof: i64,
        pub snow: i64,
        pub rain: i64,
        pub wind: i64,
        pub quake: i64,
    }

    /// What checking gives: the number, which effect is refused and its double as it came; or the whole newtons.
    #[repr(C)]
    #[derive(Clone, Copy, Debug, PartialEq)]
    pub struct Checked {
        pub number: u64,
        pub place: u64,
        pub value: f64,
        pub newtons: Newtons,
    }

    /// A row of the 25 combinations and its sum, in whole tenths of a newton and as the same number in a double.
    #[repr(C)]
    #[derive(Clone, Copy, Debug, PartialEq)]
    pub struct GoverningRow {
        pub row: u64,
        pub tenths: i64,
        pub value: f64,
    }

    /// The rows with the greatest and the least sum; of equal sums the lowest row.
    #[repr(C)]
    #[derive(Clone, Copy, Debug, PartialEq)]
    pub struct Governing {
        pub greatest: GoverningRow,
        pub least: GoverningRow,
    }

    /// What combining gives: the number, which effect is refused and its double as it came; or the governing rows.
    #[repr(C)]
    #[derive(Clone, Copy, Debug, PartialEq)]
    pub struct Combined {
        pub number: u64,
        pub place: u64,
        pub value: f64,
        pub governing: Governing,
    }

    /// The six effects of a sheet in whole newtons; the live effect follows from its column.
    #[repr(C)]
    #[derive(Clone, Copy, Debug, Default, PartialEq, Eq)]
    pub struct SheetEffects {
        pub dead: i64,
        pub roof: i64,
        pub snow: i64,
        pub rain: i64,
        pub wind: i64,
        pub quake: i64,
    }

    /// The six effects of a sheet in newtons, as doubles: D, Lr, S, R, W, E.
    #[repr(C)]
    #[derive(Clone, Copy, Debug, Default, PartialEq)]
    pub struct SheetDoubles {
        pub dead: f64,
        pub roof: f64,
        pub snow: f64,
        pub rain: f64,
        pub wind: f64,
        pub quake: f64,
    }

    /// What reading gives: the number, the line K, the part of the text that is refused, and what was read before it.
    #[repr(C)]
    #[derive(Clone, Copy, Debug, PartialEq, Eq)]
    pub struct Reading {
        pub number: u64,
        pub line: u64,
        pub start: usize,
        pub end: usize,
        pub column: Column,
        pub effects: SheetEffects,
    }

    /// What reporting gives: the number, the line K, and how many bytes were written.
    #[repr(C)]
    #[derive(Clone, Copy, Debug, PartialEq, Eq)]
    pub struct Reported {
        pub number: u64,
        pub line: u64,
        pub length: usize,
    }

    /// What writing gives: the number, which of the six effects is refused and its double as it came, 0 where none is;
    /// and how many bytes were written.
    #[repr(C)]
    #[derive(Clone, Copy, Debug, PartialEq)]
    pub struct Written {
        pub number: u64,
        pub place: u64,
        pub value: f64,
        pub length: usize,
    }

    unsafe extern "C" {
        /// The mark of the layout; gives its number.
        pub fn bungero_layout_1() -> u64;
        /// Opens a member.
        pub fn bungero_open(code: u64) -> Opened;
        /// Opens a member for a caller that has the places itself: with a count of 0 and each place 0 they are its column.
        pub fn bungero_open_member(code: u64) -> OpenedMember;
        /// Enters a line on a column lent in its parts, which must be one that these calls gave; writes to `held` where it is
        /// accepted, and the column's count is then the one in the answer.
        pub fn bungero_enter(
            held: *mut Places,
            member: Member,
            count: u16,
            floor: u64,
            use_class: u64,
            load: u64,
            area: u64,
        ) -> Entered;
        /// Enters lines, lent as so many numbers, four a line, that are only read, on a column lent in its parts, which must
        /// be one that these calls gave; up to and with the first refused line. The lines before it are written to `held`,
        /// which they may not overlap, and the column's count is then the one in the answer. `lines` may be null where
        /// there are none.
        pub fn bungero_paste(held: *mut Places, member: Member, count: u16, lines: *const u64, numbers: usize) -> Pasted;
        /// Asks at a floor of a column lent in its parts, which must be one that these calls gave.
        pub fn bungero_ask(held: *const Places, member: Member, count: u16, floor: u64) -> Figure;
        /// Writes the sheet of a column lent in its parts, which must be one that these calls gave and is only read, to
        /// the start of `out`, or no byte where something is refused. The `room` bytes of `out` must not overlap the
        /// places; `out` may be null where there are none.
        pub fn bungero_write(
            held: *const Places,
            member: Member,
            count: u16,
            effects: SheetDoubles,
            out: *mut u8,
            room: usize,
        ) -> Written;
        /// The reduced load R of a line, at n floors and influence area X.
        pub fn bungero_reduced_load(load: u64, use_class: u64, floors: u64, influence: u64) -> Reduced;
        /// The figure of a lent list, `count` records that are only read; `lines` may be null where there are none.
        pub fn bungero_figure_of(code: u64, lines: *const Line, count: usize, floor: u64) -> Listed;
        /// The seven effects in whole newtons, or the first that is refused.
        pub fn bungero_check(effects: Effects) -> Checked;
        /// The governing rows of the 25 combinations, or the first effect that is refused.
        pub fn bungero_combine(effects: Effects) -> Combined;
        /// A lent text, `length` bytes that are only read, read as a sheet; `text` may be null where there are none. The
        /// column is one that the calls take where the number is 0, and only there.
        pub fn bungero_read(text: *const u8, length: usize) -> Reading;
        /// The report of such a text to the start of `out`, or no byte where it is refused. The 4,096 bytes of `out` must not
        /// overlap the text.
        pub fn bungero_report(text: *const u8, length: usize, out: *mut [u8; REPORT_ROOM]) -> Reported;
    }
}

// Stops the compiler where a struct has not the size, the alignment or the offsets that the library was built for.
macro_rules! layout {
    ($($name:ident size $size:literal align $align:literal: $($field:ident $offset:literal),+;)+) => {
        $(const _: () = {
            assert!(size_of::<raw::$name>() == $size && align_of::<raw::$name>() == $align, stringify!($name));
            $(assert!(offset_of!(raw::$name, $field) == $offset, concat!(stringify!($name), ".", stringify!($field)));)+
        };)+
    };
}

layout! {
    Line size 32 align 8: floor 0, use_class 8, load 16, area 24;
    Member size 1 align 1: code 0;
    Column size 2056 align 8: member 0, count 2, held 8;
    Opened size 2064 align 8: number 0, column 8;
    OpenedMember size 16 align 8: number 0, member 8;
    Entered size 16 align 8: number 0, count 8;
    Pasted size 16 align 8: number 0, kept 8, count 10;
    Figure size 32 align 8: number 0, floors 8, influence 16, figure 24;
    Reduced size 16 align 8: number 0, reduced 8;
    Listed size 40 align 8: number 0, place 8, floors 16, influence 24, figure 32;
    Effects size 56 align 8: dead 0, live 8, roof 16, snow 24, rain 32, wind 40, quake 48;
    Newtons size 56 align 8: dead 0, live 8, roof 16, snow 24, rain 32, wind 40, quake 48;
    Checked size 80 align 8: number 0, place 8, value 16, newtons 24;
    GoverningRow size 24 align 8: row 0, tenths 8, value 16;
    Governing size 48 align 8: greatest 0, least 24;
    Combined size 72 align 8: number 0, place 8, value 16, governing 24;
    SheetEffects size 48 align 8: dead 0, roof 8, snow 16, rain 24, wind 32, quake 40;
    SheetDoubles size 48 align 8: dead 0, roof 8, snow 16, rain 24, wind 32, quake 40;
    Reading size 2136 align 8: number 0, line 8, start 16, end 24, column 32, effects 2088;
    Reported size 24 align 8: number 0, line 8, length 16;
    Written size 32 align 8: number 0, place 8, value 16, length 24;
}

/// What *takedown* prints for a sheet that is read.
#[derive(Clone)]
pub struct Report {
    room: [u8; REPORT_ROOM],
    length: usize,
}

impl Report {
    /// The report's own bytes: printable ASCII and newlines.
    pub fn as_bytes(&self) -> &[u8] {
        &self.room[..self.length]
    }
}

impl Deref for Report {
    type Target = [u8];

    fn deref(&self) -> &[u8] {
        self.as_bytes()
    }
}

impl AsRef<[u8]> for Report {
    fn as_ref(&self) -> &[u8] {
        self.as_bytes()
    }
}

impl PartialEq for Report {
    fn eq(&self, other: &Report) -> bool {
        self.as_bytes() == other.as_bytes()
    }
}

impl Eq for Report {}

impl fmt::Display for Report {
    fn fmt(&self, f: &mut fmt::Formatter) -> fmt::Result {
        f.write_str(&String::from_utf8_lossy(self.as_bytes()))
    }
}

impl fmt::Debug for Report {
    fn fmt(&self, f: &mut fmt::Formatter) -> fmt::Result {
        f.debug_tuple("Report").field(&String::from_utf8_lossy(self.as_bytes())).finish()
    }
}

/// The count n of floors, the influence area X in dm² and the figure in hundredths of a newton, at a floor.
#[derive(Clone, Copy, Debug, PartialEq, Eq)]
pub struct Working {
    pub floors: u64,
    pub influence: u64,
    pub figure: u64,
}

/// Why a member is not opened, a line not entered or reduced, or a floor not asked at: the paper's number.
#[derive(Clone, Copy, Debug, PartialEq, Eq)]
pub struct Refused {
    pub number: u64,
}

impl fmt::Display for Refused {
    fn fmt(&self, f: &mut fmt::Formatter) -> fmt::Result {
        write!(f, "refused={}", self.number)
    }
}

impl std::error::Error for Refused {}

/// Why a list has no figure: the number, and the place of the refused line, counted from 1; 0 for numbers 1 and 7.
#[derive(Clone, Copy, Debug, PartialEq, Eq)]
pub struct RefusedList {
    pub number: u64,
    pub place: u64,
}

impl fmt::Display for RefusedList {
    fn fmt(&self, f: &mut fmt::Formatter) -> fmt::Result {
        write!(f, "refused={} place={}", self.number, self.place)
    }
}

impl std::error::Error for RefusedList {}

/// Why not all lines of a list are entered: the number of the first refused line, and how many lines before it are kept, so
/// that its index is `kept`, and its place, counted from 1, `kept + 1`.
#[derive(Clone, Copy, Debug, PartialEq, Eq)]
pub struct RefusedPaste {
    pub number: u64,
    pub kept: usize,
}

impl fmt::Display for RefusedPaste {
    fn fmt(&self, f: &mut fmt::Formatter) -> fmt::Result {
        write!(f, "refused={} kept={}", self.number, self.kept)
    }
}

impl std::error::Error for RefusedPaste {}

/// Why a sheet is not read: the number; the line K, counted from 1, a missing one as the next, 0 for number 11; and that line
/// in the caller's own text, without its newline: empty at the text's end where it is missing, at its start for 11. It
/// prints what *takedown* prints, and lives no longer than the text.
#[derive(Clone, Copy, Debug, PartialEq, Eq)]
pub struct RefusedSheet<'a> {
    pub number: u64,
    pub line: u64,
    pub part: &'a [u8],
}

impl fmt::Display for RefusedSheet<'_> {
    fn fmt(&self, f: &mut fmt::Formatter) -> fmt::Result {
        write!(f, "refused={} line={}", self.number, self.line)
    }
}

impl std::error::Error for RefusedSheet<'_> {}

/// The first effect that is refused: 8 or 9, its place from 1 (dead) to 7 (quake), and its double as it came, bit for bit.
#[derive(Clone, Copy, Debug)]
pub struct RefusedEffect {
    pub number: u64,
    pub place: u64,
    pub value: f64,
}

// Equal bit for bit, so that a NaN is equal to itself.
impl PartialEq for RefusedEffect {
    fn eq(&self, other: &RefusedEffect) -> bool {
        let bits = |each: &RefusedEffect| (each.number, each.place, each.value.to_bits());
        bits(self) == bits(other)
    }
}

impl Eq for RefusedEffect {}

impl fmt::Display for RefusedEffect {
    fn fmt(&self, f: &mut fmt::Formatter) -> fmt::Result {
        write!(f, "refused={} place={} value={}", self.number, self.place, self.value)
    }
}

impl std::error::Error for RefusedEffect {}

/// Why a sheet is not written: 8 or 9 for the first refused effect, with its place from 1 (dead) to 6 (quake) and its
/// double as it came, bit for bit; or 12 where the buffer is shorter than the text, with 0 for both.
#[derive(Clone, Copy, Debug)]
pub struct RefusedWrite {
    pub number: u64,
    pub place: u64,
    pub value: f64,
}

// Equal bit for bit, so that a NaN is equal to itself.
impl PartialEq for RefusedWrite {
    fn eq(&self, other: &RefusedWrite) -> bool {
        let bits = |each: &RefusedWrite| (each.number, each.place, each.value.to_bits());
        bits(self) == bits(other)
    }
}

impl Eq for RefusedWrite {}

impl fmt::Display for RefusedWrite {
    fn fmt(&self, f: &mut fmt::Formatter) -> fmt::Result {
        match self.number {
            refusal::NO_ROOM => write!(f, "refused={}", self.number),
            _ => write!(f, "refused={} place={} value={}", self.number, self.place, self.value),
        }
    }
}

impl std::error::Error for RefusedWrite {}

impl From<[f64; 7]> for Effects {
    /// In the paper's order: D, L, Lr, S, R, W, E.
    fn from(doubles: [f64; 7]) -> Effects {
        let [dead, live, roof, snow, rain, wind, quake] = doubles;
        Effects { dead, live, roof, snow, rain, wind, quake }
    }
}

impl From<Newtons> for [i64; 7] {
    /// In the paper's order: D, L, Lr, S, R, W, E.
    fn from(newtons: Newtons) -> [i64; 7] {
        let Newtons { dead, live, roof, snow, rain, wind, quake } = newtons;
        [dead, live, roof, snow, rain, wind, quake]
    }
}

impl From<SheetEffects> for [i64; 6] {
    /// In the paper's order: D, Lr, S, R, W, E.
    fn from(effects: SheetEffects) -> [i64; 6] {
        let SheetEffects { dead, roof, snow, rain, wind, quake } = effects;
        [dead, roof, snow, rain, wind, quake]
    }
}

impl From<[f64; 6]> for SheetDoubles {
    /// In the paper's order: D, Lr, S, R, W, E.
    fn from(doubles: [f64; 6]) -> SheetDoubles {
        let [dead, roof, snow, rain, wind, quake] = doubles;
        SheetDoubles { dead, roof, snow, rain, wind, quake }
    }
}

impl From<SheetEffects> for SheetDoubles {
    /// The same numbers for all within the limits; one beyond them is beyond them as a double too.
    fn from(effects: SheetEffects) -> SheetDoubles {
        <[i64; 6]>::from(effects).map(|newtons| newtons as f64).into()
    }
}

// The count of a column's lines in a word of its own: a load of it that spans the places just cleared, or that takes the
// member along, cannot be forwarded from the store before it, and stalls.
#[derive(Clone, Copy, Debug, PartialEq, Eq)]
#[repr(align(8))]
struct Count(u16);

/// A member and its accepted lines. Only `open` and `read` make one and only `enter` and `paste` change it.
#[derive(Clone, Debug, PartialEq, Eq)]
#[repr(C)]
pub struct Column {
    held: raw::Places,
    member: raw::Member,
    count: Count,
}

impl Column {
    // A column that reading gave with number 0.
    fn of(column: raw::Column) -> Column {
        let raw::Column { member, count, held } = column;
        Column { held, member, count: Count(count) }
    }

    /// Opens a member without lines; 1 where the code is not 1 to 12.
    pub fn open(code: u64) -> Result<Column, Refused> {
        // SAFETY: the call takes every code and touches no memory of ours.
        let opened = unsafe { raw::bungero_open_member(code) };
        match opened.number {
            // With each place 0 it is the column that opening gives, as the call promises.
            0 => Ok(Column { held: [0; LINES], member: opened.member, count: Count(0) }),
            number => Err(Refused { number }),
        }
    }

    /// Enters a line at the end of the accepted ones; or 2 to 6, and the column is as before.
    pub fn enter(&mut self, line: Line) -> Result<(), Refused> {
        let Line { floor, use_class, load, area } = line;
        // SAFETY: the column is one that a call gave, changed only by these calls; its places are borrowed for us alone.
        let entered = unsafe { raw::bungero_enter(&mut self.held, self.member, self.count.0, floor, use_class, load, area) };
        self.count = Count(entered.count);
        match entered.number {
            0 => Ok(()),
            number => Err(Refused { number }),
        }
    }

    /// Enters all of some lines, in order, at the end of the accepted ones; or 2 to 6 for the first refused one. The lines
    /// before that one are kept, so the column is not as before where there are any; those after it are not looked at.
    pub fn paste(&mut self, lines: &[Line]) -> Result<(), RefusedPaste> {
        let (numbers, length) = (lines.as_ptr().cast(), 4 * lines.len());
        // SAFETY: the column is one that a call gave, changed only by these calls; its places are borrowed for us alone. A line
        // is four numbers in C's layout, so the slice is one of so many numbers, which the call only reads.
        let pasted = unsafe { raw::bungero_paste(&mut self.held, self.member, self.count.0, numbers, length) };
        self.count = Count(pasted.count);
        match pasted.number {
            0 => Ok(()),
            number => Err(RefusedPaste { number, kept: pasted.kept.into() }),
        }
    }

    /// How many lines it holds.
    pub fn count(&self) -> usize {
        self.count.0.into()
    }

    /// Asks at a floor; 7 where no accepted line has that floor.
    pub fn ask(&self, floor: u64) -> Result<Working, Refused> {
        // SAFETY: the column is one that a call gave, changed only by these calls; its places are only read.
        let asked = unsafe { raw::bungero_ask(&self.held, self.member, self.count.0, floor) };
        match asked.number {
            0 => Ok(Working { floors: asked.floors, influence: asked.influence, figure: asked.figure }),
            number => Err(Refused { number }),
        }
    }

    /// Writes the sheet of this column and these effects to the start of `out`; gives how many bytes, and leaves the
    /// others as they were. Reading it gives the same column and effects, minus zero as 0. Or the first effect that is
    /// not whole or beyond ±1,000,000,000,000, or else 12 where `out` is shorter than the text, and no byte is written.
    pub fn write_into(&self, effects: SheetDoubles, out: &mut [u8]) -> Result<usize, RefusedWrite> {
        let (start, room) = (out.as_mut_ptr(), out.len());
        // SAFETY: the column is one that a call gave, changed only by these calls; its places are only read. Pointer
        // and length are those of one slice, which is borrowed for us alone.
        let written = unsafe { raw::bungero_write(&self.held, self.member, self.count.0, effects, start, room) };
        match written.number {
            0 => Ok(written.length),
            number => Err(RefusedWrite { number, place: written.place, value: written.value }),
        }
    }
}

/// The reduced load R of a line in N/m², at n floors (0 counts as 1) and influence area X in dm²; or 4 for a class that is
/// not 1 to 3, 5 for a load that is not 1 to 50,000.
pub fn reduced_load(load: u64, use_class: u64, floors: u64, influence: u64) -> Result<u64, Refused> {
    // SAFETY: the call takes all numbers and touches no memory of ours.
    let reduced = unsafe { raw::bungero_reduced_load(load, use_class, floors, influence) };
    match reduced.number {
        0 => Ok(reduced.reduced),
        number => Err(Refused { number }),
    }
}

/// The working at a floor of a member with these lines; or the first refusal: 1 for the code, else 2 to 6 for a line with its
/// place, else 7 where no line has that floor.
pub fn figure_of(code: u64, lines: &[Line], floor: u64) -> Result<Working, RefusedList> {
    // SAFETY: pointer and count are those of one slice, which the call only reads.
    let listed = unsafe { raw::bungero_figure_of(code, lines.as_ptr(), lines.len(), floor) };
    match listed.number {
        0 => Ok(Working { floors: listed.floors, influence: listed.influence, figure: listed.figure }),
        number => Err(RefusedList { number, place: listed.place }),
    }
}

/// The effects in whole newtons, minus zero as 0; or the first that is not whole or beyond ±1,000,000,000,000.
pub fn check(effects: Effects) -> Result<Newtons, RefusedEffect> {
    // SAFETY: the call takes all doubles, by value.
    let checked = unsafe { raw::bungero_check(effects) };
    match checked.number {
        0 => Ok(checked.newtons),
        number => Err(RefusedEffect { number, place: checked.place, value: checked.value }),
    }
}

/// The rows of the 25 combinations with the greatest and the least sum; or the first effect that `check` refuses.
pub fn combine(effects: Effects) -> Result<Governing, RefusedEffect> {
    // SAFETY: the call takes all doubles, by value.
    let combined = unsafe { raw::bungero_combine(effects) };
    match combined.number {
        0 => Ok(combined.governing),
        number => Err(RefusedEffect { number, place: combined.place, value: combined.value }),
    }
}

/// What a sheet says: its column, which can be asked, entered on and written, and its six effects.
#[derive(Clone, Debug, PartialEq, Eq)]
pub struct Sheet {
    pub column: Column,
    pub effects: SheetEffects,
}

impl Sheet {
    /// Writes the sheet as `Column::write_into` does, with its own effects: byte for byte the text that was read, where
    /// nothing is changed.
    pub fn write_into(&self, out: &mut [u8]) -> Result<usize, RefusedWrite> {
        self.column.write_into(self.effects.into(), out)
    }
}

// What the library reads in a text.
fn reading(text: &[u8]) -> raw::Reading {
    // SAFETY: pointer and length are those of one slice, which the call only reads.
    unsafe { raw::bungero_read(text.as_ptr(), text.len()) }
}

/// Reads a text as a sheet; or the first refusal, with its line and that part of the text.
pub fn read(text: &[u8]) -> Result<Sheet, RefusedSheet<'_>> {
    let raw::Reading { number, line, start, end, column, effects } = reading(text);
    match number {
        0 => Ok(Sheet { column: Column::of(column), effects }),
        _ => Err(RefusedSheet { number, line, part: &text[start..end] }),
    }
}

/// What *takedown* prints for a sheet, to the start of `out`; gives how many bytes, and leaves the others as they were. Or why
/// `read` refuses it, and no byte is written; its part is found by reading the text once more.
pub fn report_into<'a>(text: &'a [u8], out: &mut [u8; REPORT_ROOM]) -> Result<usize, RefusedSheet<'a>> {
    // SAFETY: pointer and length are those of one slice, which the call only reads; `out` is borrowed for us alone.
    let raw::Reported { number, line, length } = unsafe { raw::bungero_report(text.as_ptr(), text.len(), out) };
    match number {
        0 => Ok(length),
        _ => {
            let raw::Reading { start, end, .. } = reading(text);
            Err(RefusedSheet { number, line, part: &text[start..end] })
        }
    }
}

/// What *takedown* prints for a sheet: each floor's working and the governing rows; or why `read` refuses it.
pub fn report(text: &[u8]) -> Result<Report, RefusedSheet<'_>> {
    let mut room = [0; REPORT_ROOM];
    let length = report_into(text, &mut room)?;
    Ok(Report { room, length })
}
