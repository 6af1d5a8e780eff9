// A column by the raw calls, for the trials: its places lie between canaries, and every call is watched for what it
// changes.
use crate::bungero::{raw, Refused, RefusedWrite, SheetDoubles, Working};
use crate::plain::column::Entry;

const CANARIES: usize = 16; // watched on either side of the places
const CANARY: u64 = 0xa5a5_a5a5_a5a5_a5a5;
const BESIDE: usize = 64; // bytes that are watched on either side of a buffer

// A column as the raw calls have it.
pub struct RawColumn {
    member: raw::Member,
    pub count: u16,
    lent: Vec<u64>, // the column's places, between canaries
}

impl RawColumn {
    pub fn open(code: u64) -> RawColumn {
        let opened = unsafe { raw::bungero_open(code) };
        assert_eq!((opened.number, opened.column.count), (0, 0), "opening {code}");
        RawColumn::of(&opened.column)
    }

    // A column that opening or reading gave.
    pub fn of(column: &raw::Column) -> RawColumn {
        let canaries = [CANARY; CANARIES];
        let lent = [&canaries[..], &column.held, &canaries].concat();
        RawColumn { member: column.member, count: column.count, lent }
    }

    // Whether it is this one, with all of its places.
    pub fn is(&self, column: &raw::Column) -> bool {
        let places = &self.lent[CANARIES..self.lent.len() - CANARIES];
        (self.member, self.count, places) == (column.member, column.count, &column.held)
    }

    // The number of an entry. A refused one changes nothing, an accepted one no canary.
    pub fn enter(&mut self, entry: Entry) -> u64 {
        let before = self.lent.clone();
        let Entry { floor, class, load, area } = entry;
        let places = self.lent[CANARIES..].as_mut_ptr().cast::<raw::Places>();
        // SAFETY: the places are those that opening gave, changed only here, and the count is the last one given.
        let entered = unsafe { raw::bungero_enter(places, self.member, self.count, floor, class, load, area) };
        if entered.number != 0 {
            assert!(self.lent == before && entered.count == self.count, "a refused line changed the column");
            return entered.number;
        }
        assert_eq!(entered.count, self.count + 1, "an accepted line is not counted");
        self.grown(&before, entered.count);
        0
    }

    // The number of a paste and how many lines it keeps. It changes nothing but the places of these lines.
    pub fn paste(&mut self, entries: &[Entry]) -> (u64, usize) {
        let before = self.lent.clone();
        let beside = [CANARY; 4];
        let numbers = entries.iter().flat_map(|each| [each.floor, each.class, each.load, each.area]);
        let list: Vec<u64> = beside.into_iter().chain(numbers).chain(beside).collect();
        let lines = list.clone();
        let places = self.lent[CANARIES..].as_mut_ptr().cast::<raw::Places>();
        // SAFETY: as in `enter`; the lines stand between two more, which are not lent.
        let pasted =
            unsafe { raw::bungero_paste(places, self.member, self.count, lines[4..].as_ptr(), 4 * entries.len()) };
        assert!(lines == list, "a lent list was written to");
        assert_eq!(pasted.count, self.count + pasted.kept, "the kept lines are not those that are counted");
        self.grown(&before, pasted.count);
        (pasted.number, pasted.kept.into())
    }

    // Takes over a greater count; only the places from the old one to before it may have changed.
    fn grown(&mut self, before: &[u64], count: u16) {
        let (first, end) = (CANARIES + usize::from(self.count), CANARIES + usize::from(count));
        assert!(self.lent[..first] == before[..first], "a place before the count was written to");
        assert!(self.lent[end..] == before[end..], "written past the places of the lines");
        self.count = count;
    }

    // What asking gives; it changes nothing, and a refusal comes alone.
    pub fn ask(&self, floor: u64) -> Result<Working, Refused> {
        let before = self.lent.clone();
        let places = self.lent[CANARIES..].as_ptr().cast::<raw::Places>();
        // SAFETY: as in `enter`.
        let asked = unsafe { raw::bungero_ask(places, self.member, self.count, floor) };
        assert!(self.lent == before, "asking changed the column");
        let working = Working { floors: asked.floors, influence: asked.influence, figure: asked.figure };
        if asked.number == 0 {
            return Ok(working);
        }
        assert_eq!(working, Working { floors: 0, influence: 0, figure: 0 }, "a figure beside a refusal");
        Err(Refused { number: asked.number })
    }

    // What writing into a buffer of so many bytes gives: the text, or the refusal. It is the same over two patterns
    // that differ in every byte, so that no byte can be written and look as before.
    pub fn write(&self, effects: SheetDoubles, room: usize) -> Result<Vec<u8>, RefusedWrite> {
        let [written, again] = [0, 0xff].map(|turned| self.write_over(effects, room, turned));
        assert_eq!(written, again, "what is written depends on what was there");
        written
    }

    // The same over a pattern. Nothing is changed but the bytes of the text, which stand between canaries; a refusal
    // comes alone.
    fn write_over(&self, effects: SheetDoubles, room: usize, turned: u8) -> Result<Vec<u8>, RefusedWrite> {
        let before = self.lent.clone();
        let start = BESIDE + room % 8;
        let mut buffer: Vec<u8> = (0..start + room + BESIDE).map(|at| (at as u8).wrapping_mul(151) ^ turned).collect();
        let mut expected = buffer.clone();
        let places = self.lent[CANARIES..].as_ptr().cast::<raw::Places>();
        let out = buffer[start..].as_mut_ptr();
        // SAFETY: as in `enter`; the buffer has `room` bytes from there on, and more.
        let written = unsafe { raw::bungero_write(places, self.member, self.count, effects, out, room) };
        let raw::Written { number, place, value, length } = written;
        assert!(self.lent == before, "writing changed the column");
        assert!(length <= room, "a text of {length} bytes in a buffer of {room}");
        let text = buffer[start..][..length].to_vec();
        expected[start..][..length].copy_from_slice(&text);
        assert!(buffer == expected, "a byte that is not the text's was written, or one for a refusal");
        if number != 0 {
            assert_eq!(length, 0, "a text beside a refusal");
            return Err(RefusedWrite { number, place, value });
        }
        assert_eq!((place, value.to_bits()), (0, 0), "a refusal beside a text");
        Ok(text)
    }
}
