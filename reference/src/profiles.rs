//! The kinds of list: what each is made of, and how strange it is.

/// What a generator does next; some are several lines.
#[derive(Clone, Copy, Debug, PartialEq, Eq)]
pub(crate) enum Act {
    AppendElement,
    AppendText,
    AppendComment,
    AppendPi,
    SetText,
    SetAttribute,
    RemoveAttribute,
    DeclareNamespace,
    Remove,
    /// The container with the most children, to free many slots at once.
    RemoveWidest,
    Detach,
    Reparent,
    InsertAt,
    DocumentOrder,
    Compact,
    /// One of the reading calls.
    Read,
    /// `descendants`, where much is moved or freed.
    Descendants,
    Ranges,
    /// `order_key` of live nodes and of others.
    OrderKeys,
    /// Every character at an edge of the productions, as a name, in a name, as a text and as a comment.
    Productions,
    /// A short list, run again under limits that it just meets or just misses.
    Replay,
    /// A line that is no call, a comment, or none at all.
    Noise,
    /// A new document.
    Restart,
}

use Act::*;

/// The limits of a new document.
#[derive(Clone, Copy, Debug, PartialEq, Eq)]
pub(crate) enum Size {
    /// The program's own.
    Own,
    /// All small.
    Small,
}

pub(crate) struct Profile {
    pub(crate) name: &'static str,
    /// How often each act comes, one against another.
    pub(crate) acts: &'static [(Act, usize)],
    /// Handles that don't resolve or name a wrong kind, in a thousand.
    pub(crate) bad: usize,
    /// Names and texts from the edges of the productions, in a thousand.
    pub(crate) odd: usize,
    /// Bytes that aren't UTF-8, in a thousand.
    pub(crate) broken: usize,
    pub(crate) size: Size,
}

pub(crate) fn named(name: &str) -> Option<&'static Profile> {
    PROFILES.iter().find(|profile| profile.name == name)
}

#[rustfmt::skip]
pub(crate) static PROFILES: [Profile; 12] = [
    Profile {
        name: "mixed",
        acts: &[
            (AppendElement, 14), (AppendText, 10), (AppendComment, 4), (AppendPi, 4), (SetText, 5),
            (SetAttribute, 8), (RemoveAttribute, 3), (DeclareNamespace, 5), (Remove, 6),
            (RemoveWidest, 1), (Detach, 3), (Reparent, 5), (InsertAt, 8), (DocumentOrder, 2),
            (Compact, 1), (Read, 12), (Descendants, 2), (Ranges, 5), (OrderKeys, 3), (Restart, 1),
        ],
        bad: 60,
        odd: 50,
        broken: 10,
        size: Size::Own,
    },
    // Wide and deep trees, whose blocks move and double.
    Profile {
        name: "growth",
        acts: &[
            (AppendElement, 40), (AppendText, 14), (AppendComment, 4), (AppendPi, 4),
            (SetAttribute, 10), (DeclareNamespace, 6), (InsertAt, 6), (Remove, 2), (Ranges, 10),
            (Read, 4), (Descendants, 2), (Compact, 1), (DocumentOrder, 1),
        ],
        bad: 10,
        odd: 10,
        broken: 2,
        size: Size::Own,
    },
    Profile {
        name: "moves",
        acts: &[
            (AppendElement, 10), (AppendText, 6), (AppendComment, 2), (AppendPi, 2), (InsertAt, 30),
            (Reparent, 16), (Detach, 8), (Remove, 3), (Ranges, 10), (Read, 6), (Descendants, 6),
            (OrderKeys, 2), (DocumentOrder, 2), (Compact, 2), (Restart, 1),
        ],
        bad: 60,
        odd: 20,
        broken: 0,
        size: Size::Own,
    },
    // Much is removed and made again: slots and text slots are taken in the order of their freeing.
    Profile {
        name: "reuse",
        acts: &[
            (AppendElement, 16), (AppendText, 14), (AppendComment, 6), (AppendPi, 6),
            (SetAttribute, 12), (DeclareNamespace, 10), (SetText, 6), (Remove, 14),
            (RemoveWidest, 3), (RemoveAttribute, 4), (Detach, 3), (Reparent, 2), (Read, 6),
            (Descendants, 3), (Ranges, 4), (OrderKeys, 4), (DocumentOrder, 1), (Compact, 1),
        ],
        bad: 80,
        odd: 10,
        broken: 2,
        size: Size::Own,
    },
    // The order is renewed again and again, and asked for after each edit: some make it stale and some don't.
    Profile {
        name: "order",
        acts: &[
            (AppendElement, 8), (AppendText, 4), (AppendPi, 1), (SetText, 8), (SetAttribute, 10),
            (RemoveAttribute, 8), (DeclareNamespace, 8), (Remove, 4), (Detach, 12), (Reparent, 5),
            (InsertAt, 5), (DocumentOrder, 20), (Compact, 4), (OrderKeys, 24), (Restart, 1),
        ],
        bad: 60,
        odd: 20,
        broken: 5,
        size: Size::Own,
    },
    Profile {
        name: "attributes",
        acts: &[
            (AppendElement, 8), (SetAttribute, 34), (RemoveAttribute, 12), (DeclareNamespace, 24),
            (Remove, 6), (Ranges, 8), (Read, 8), (Compact, 1), (DocumentOrder, 1), (Restart, 1),
        ],
        bad: 40,
        odd: 60,
        broken: 10,
        size: Size::Own,
    },
    // Names and texts at the edges of every range, and bytes that aren't UTF-8.
    Profile {
        name: "characters",
        acts: &[
            (AppendElement, 14), (AppendText, 14), (AppendComment, 14), (AppendPi, 14), (SetText, 10),
            (SetAttribute, 14), (RemoveAttribute, 3), (DeclareNamespace, 14), (Remove, 6),
            (InsertAt, 3), (Read, 6), (Restart, 1),
        ],
        bad: 30,
        odd: 700,
        broken: 80,
        size: Size::Own,
    },
    // Several reasons to refuse a call at once, of which the first is to be answered.
    Profile {
        name: "reasons",
        acts: &[
            (AppendElement, 14), (AppendText, 8), (AppendComment, 8), (AppendPi, 8), (SetText, 8),
            (SetAttribute, 12), (RemoveAttribute, 3), (DeclareNamespace, 10), (Remove, 1), (Detach, 3),
            (Reparent, 12), (InsertAt, 12), (Read, 6), (Restart, 2),
        ],
        bad: 500,
        odd: 500,
        broken: 40,
        size: Size::Small,
    },
    Profile {
        name: "productions",
        acts: &[(Productions, 1)],
        bad: 0,
        odd: 0,
        broken: 0,
        size: Size::Own,
    },
    // Small limits, so that calls are Full.
    Profile {
        name: "full",
        acts: &[
            (AppendElement, 14), (AppendText, 10), (AppendComment, 4), (AppendPi, 6), (SetText, 8),
            (SetAttribute, 12), (RemoveAttribute, 3), (DeclareNamespace, 8), (Remove, 6), (Detach, 3),
            (Reparent, 6), (InsertAt, 10), (Compact, 2), (Read, 4), (Ranges, 3), (DocumentOrder, 1),
            (Restart, 2),
        ],
        bad: 40,
        odd: 30,
        broken: 5,
        size: Size::Small,
    },
    // The same calls under limits that are met exactly, and one below.
    Profile {
        name: "edge",
        acts: &[(Replay, 1)],
        bad: 20,
        odd: 20,
        broken: 2,
        size: Size::Own,
    },
    Profile {
        name: "lines",
        acts: &[
            (AppendElement, 6), (AppendText, 6), (SetAttribute, 4), (Remove, 2), (InsertAt, 4),
            (Read, 4), (Noise, 30), (Restart, 1),
        ],
        bad: 40,
        odd: 60,
        broken: 20,
        size: Size::Own,
    },
];
