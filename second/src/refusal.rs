//! Why a call is refused. The numbers are those of the requirement's table.

pub const HIGHEST_REFUSAL: usize = 22;

#[derive(Clone, Copy, Debug, PartialEq, Eq)]
pub enum Refusal {
    Neighbour = 1,
    MessageLength = 2,
    MessageType = 3,
    Framing = 4,
    TlvOrder = 5,
    Element = 6,
    OpaqueLength = 7,
    Label = 8,
    FurtherTlv = 9,
    OtherLabel = 10,
    TreesFull = 11,
    LabelsShort = 12,
    NotAwaited = 13,
    NotLeaf = 14,
    RootsFull = 15,
    Room = 16,
    Base = 17,
    /// An opaque value that forms no elements, of request [8]; tested after 7
    /// and before 8.
    OpaqueForm = 18,
    /// Octets that no table would write, of request [3], or a table that the
    /// form has no space for, of request [5].
    NoSave = 19,
    /// Too little room for a message, or too small a buffer, of request [12].
    Unfit = 20,
    /// Octets that are no Notification record, of request [1].
    NoNotice = 21,
    /// Nothing inside a name, of request [9].
    LastLayer = 22,
}

impl Refusal {
    pub fn number(self) -> u8 {
        self as u8
    }
}
