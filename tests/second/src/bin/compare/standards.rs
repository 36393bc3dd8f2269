//! The standards that a session is run under.

use second::postings::Refusal;
use second::room::Room;
use second::standards::Table;
use second::std_text::read_table;
use second::text::Answered;
use std::io;

/// The text beside a session, if there is one, and what that gives.
pub struct Standards {
    text: Option<Vec<u8>>,
    pub table: Result<Table, Refusal>,
}

impl Standards {
    pub fn of(text: Option<Vec<u8>>) -> Self {
        let table = match &text {
            Some(text) => read_table(text.as_slice()).expect("bytes can be read"),
            None => Ok(Table::built_in()),
        };
        Standards { text, table }
    }

    pub fn lay_out(&self, room: &Room) -> io::Result<()> {
        room.lay_out(self.text.as_deref())
    }

    pub fn are_own(&self) -> bool {
        self.text.is_some()
    }

    /// Whether the text, if there is one, is accepted.
    pub fn verdict(&self) -> Option<Result<(), Refusal>> {
        let verdict = self.table.as_ref().map(drop).map_err(|&refusal| refusal);
        self.text.as_ref().map(|_| verdict)
    }

    /// What sessions are aimed at.
    pub fn aim(&self) -> Table {
        self.table.clone().unwrap_or_else(|_| Table::built_in())
    }
}

/// The whole output where a text is at fault.
pub fn refused(refusal: Refusal) -> Vec<u8> {
    format!("{}\n", Answered(Err(refusal))).into()
}
