/// How deep and how large a value may be.
///
/// ```
/// use bcs_proved::Limits;
///
/// let small = Limits { nodes: Some(10_000), ..Limits::default() };
/// assert_eq!(small.depth, 500);
/// assert_eq!(Limits::default(), Limits { depth: 500, nodes: None });
/// ```
#[derive(Clone, Copy, Debug, PartialEq, Eq, Hash)]
pub struct Limits {
    /// How deeply containers may nest. Calls reject more than 500, as
    /// [`ErrorKind::Limits`](crate::ErrorKind::Limits).
    pub depth: u32,
    /// How many nodes a value may have. Each shape of a value is one: a number, a string, an option, a list, a container,
    /// and a container's row of fields. A number is used as it is.
    ///
    /// `None` sets the limit by what a call reads. For bytes it is 16 nodes per byte plus 65,536, or fewer if the registry has
    /// a name of more than 64 bytes, so that a few hostile bytes can't become gigabytes. For values it is 16777216, of which the
    /// bytes of lists of `U8` are none. For JSON, which is at least as large as what it becomes, it is 4294967295.
    pub nodes: Option<u32>,
}

impl Limits {
    /// The greatest limits, which are those of the specification: 500 containers and 4294967295 nodes, whatever a call reads.
    /// Five bytes may then take gigabytes, so use them only for bytes from a source that you trust.
    pub const STANDARD: Limits = Limits { depth: 500, nodes: Some(u32::MAX) };

    /// The nodes that a value may have whose JSON is read.
    pub(crate) fn nodes_of_text(self) -> u32 {
        self.nodes.unwrap_or(u32::MAX)
    }

    /// The nodes that a value of a type may have. Few objects have any number if parts are shared.
    #[cfg(feature = "serde_json")]
    pub(crate) fn nodes_of_value(self) -> u32 {
        self.nodes.unwrap_or(if cfg!(test) { 1 << 12 } else { 1 << 24 })
    }
}

/// A depth of 500, and nodes by what a call reads.
impl Default for Limits {
    fn default() -> Limits {
        Limits { depth: 500, nodes: None }
    }
}
