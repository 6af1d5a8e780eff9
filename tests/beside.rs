// What the plain Rust takes and gives as the library's bindings have it, for the programs that put one beside the
// other.
use crate::bungero;
use crate::plain::column::{Entry, Working};
use crate::plain::sheet::RefusedWrite;
use crate::plain::{Refusal, RefusedAt};

impl From<Entry> for bungero::Line {
    fn from(entry: Entry) -> bungero::Line {
        let Entry { floor, class, load, area } = entry;
        bungero::Line { floor, use_class: class, load, area }
    }
}

impl From<Working> for bungero::Working {
    fn from(working: Working) -> bungero::Working {
        let Working { floors, influence, figure } = working;
        bungero::Working { floors, influence, figure }
    }
}

impl From<Refusal> for bungero::Refused {
    fn from(refusal: Refusal) -> bungero::Refused {
        bungero::Refused { number: refusal.number() }
    }
}

impl From<RefusedAt> for bungero::RefusedList {
    fn from(refused: RefusedAt) -> bungero::RefusedList {
        bungero::RefusedList { number: refused.refusal.number(), place: refused.place }
    }
}

impl From<RefusedWrite> for bungero::RefusedWrite {
    fn from(refused: RefusedWrite) -> bungero::RefusedWrite {
        let RefusedWrite { refusal, place, double } = refused;
        bungero::RefusedWrite { number: refusal.number(), place, value: double }
    }
}
