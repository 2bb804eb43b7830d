use std::fmt;

/// A line of the table: what a call does.
#[derive(Debug, Clone, Copy)]
pub enum Line {
    ParseCommand,
    ParseTransfer,
    ParseMixed,
    EventWrite,
    EventRead,
    /// A chase over so many links, then an advance.
    NextTrb {
        links: usize,
    },
    Add {
        segments: u16,
    },
    Take,
}

impl Line {
    /// Every line, and how many instructions a call of the port's may take at most.
    pub const ALL: [(Self, u32); 11] = [
        (Self::ParseCommand, 36),
        (Self::ParseTransfer, 38),
        (Self::ParseMixed, 37),
        (Self::EventWrite, 40),
        (Self::EventRead, 65),
        (Self::NextTrb { links: 0 }, 76),
        (Self::NextTrb { links: 1 }, 105),
        (Self::NextTrb { links: 16 }, 560),
        (Self::Add { segments: 1 }, 100),
        (Self::Add { segments: 4 }, 105),
        (Self::Take, 88),
    ];
}

impl fmt::Display for Line {
    fn fmt(&self, f: &mut fmt::Formatter<'_>) -> fmt::Result {
        match self {
            Self::ParseCommand => write!(f, "parse, command"),
            Self::ParseTransfer => write!(f, "parse, transfer"),
            Self::ParseMixed => write!(f, "parse, mixed"),
            Self::EventWrite => write!(f, "event write"),
            Self::EventRead => write!(f, "event read"),
            Self::NextTrb { links } => write!(f, "next_trb, links: {links}"),
            Self::Add { segments } => write!(f, "add, segments: {segments}"),
            Self::Take => write!(f, "take"),
        }
    }
}
