//! What a connection is made of.
use edge_io::Proto;

/// The bytes of a connection, and what comes of them.
#[derive(Drop)]
pub struct Stream {
    pub proto: Proto,
    pub bytes: Vec<u8>,
    /// How many events it has, and how many bytes of data each.
    pub events: u32,
    pub data: usize,
    /// How many frames the reader gives, the windows of Lumberjack aside.
    pub frames: u64,
    /// How many answers are written.
    pub answers: u64,
    /// How many groups are stored, and of how many events each.
    pub groups: u64,
    pub group: u32,
}
