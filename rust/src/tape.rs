const LOAD: u8 = 1;
const TOLERANCE: u8 = 2;
const PAIR: u8 = 3;
const END: u8 = 4;

/// The tape of a job: which blobs there are, and which of them are matched within which tolerance.
///
/// It is written command by command, or taken from bytes as they stand. Where it is at fault, [`job`](crate::job) says so.
///
/// ```
/// use viskorrel::{job, Hit, Tape};
///
/// fn point(x: f64) -> Vec<u8> {
///     let mut blob = vec![1, 0xE9, 3, 0, 0]; // little-endian, point with Z
///     blob.extend([x, 0.0, 0.0].iter().flat_map(|ordinate| ordinate.to_le_bytes()));
///     blob
/// }
/// let tape = Tape::new().load(7, &point(1.0)).load(9, &point(1.2)).load(10, &point(8.0)).tolerance(0.25).pair(7, 9).pair(7, 10).end();
/// let hits = job(&tape).unwrap();
/// assert_eq!(hits, [Hit { first: 7, second: 9, distance: 1.2 - 1.0 }]);
/// ```
#[derive(Clone, Debug, Default, PartialEq, Eq, Hash)]
pub struct Tape {
    bytes: Vec<u8>,
}

/// Two numbers of a tape whose blobs are within tolerance, and their distance.
#[derive(Clone, Copy, Debug, PartialEq)]
pub struct Hit {
    /// The first number of the match.
    pub first: u16,
    /// Its second number.
    pub second: u16,
    /// The least distance between the two, by rule 1. It is never NaN.
    pub distance: f64,
}

impl Tape {
    /// A tape without commands.
    pub fn new() -> Tape {
        Tape::default()
    }

    /// Gives a number its blob, until the number is loaded again. Any bytes may be loaded: a blob is looked at when it is matched.
    ///
    /// # Panics
    ///
    /// Where the number is above 255, or the blob has 2^32 bytes or more: a tape has no command for either.
    pub fn load(mut self, number: u16, blob: &[u8]) -> Tape {
        let length = u32::try_from(blob.len()).expect("a tape loads blobs of under 2^32 bytes");
        self.bytes.extend([LOAD, named(number)]);
        self.bytes.extend(length.to_le_bytes());
        self.bytes.extend(blob);
        self
    }

    /// The tolerance of the matches that follow. Before the first it is 0. One below 0 is refused, with 1, at the next match; NaN gives no
    /// hit.
    pub fn tolerance(mut self, metres: f64) -> Tape {
        self.bytes.push(TOLERANCE);
        self.bytes.extend(metres.to_le_bytes());
        self
    }

    /// Matches two numbers: a hit if the least distance between their blobs is at most the tolerance.
    ///
    /// # Panics
    ///
    /// Where a number is above 255: a tape has no command for it.
    pub fn pair(mut self, first: u16, second: u16) -> Tape {
        self.bytes.extend([PAIR, named(first), named(second)]);
        self
    }

    /// Ends the job. What follows on the tape is ignored.
    pub fn end(mut self) -> Tape {
        self.bytes.push(END);
        self
    }

    /// The tape as the library takes it.
    pub fn bytes(&self) -> &[u8] {
        &self.bytes
    }

    /// How many matches a job runs, if it is not refused before: as many hits as it can have.
    pub fn pairs(&self) -> usize {
        self.commands().filter(|command| matches!(command, Command::Pair)).count()
    }

    /// The blobs that a job loads, if it is not refused before.
    pub(crate) fn blobs(&self) -> impl Iterator<Item = &[u8]> {
        self.commands().filter_map(|command| match command {
            Command::Load(blob) => Some(blob),
            _ => None,
        })
    }

    fn commands(&self) -> Commands<'_> {
        Commands { rest: &self.bytes }
    }
}

/// Any bytes, such as those of a file.
impl From<Vec<u8>> for Tape {
    fn from(bytes: Vec<u8>) -> Tape {
        Tape { bytes }
    }
}

/// A number as a command has it.
fn named(number: u16) -> u8 {
    u8::try_from(number).expect("a tape has numbers up to 255")
}

enum Command<'a> {
    Load(&'a [u8]),
    Tolerance,
    Pair,
}

/// The commands up to the end, or to the first that is unknown or cut off.
struct Commands<'a> {
    rest: &'a [u8],
}

impl<'a> Commands<'a> {
    fn take(&mut self, count: usize) -> Option<&'a [u8]> {
        let taken = self.rest.get(..count)?;
        self.rest = &self.rest[count..];
        Some(taken)
    }

    fn command(&mut self) -> Option<Command<'a>> {
        match self.take(1)?[0] {
            LOAD => {
                let operands = self.take(5)?;
                let length = u32::from_le_bytes(operands[1..].try_into().ok()?);
                self.take(usize::try_from(length).ok()?).map(Command::Load)
            }
            TOLERANCE => self.take(8).map(|_| Command::Tolerance),
            PAIR => self.take(2).map(|_| Command::Pair),
            _ => None,
        }
    }
}

impl<'a> Iterator for Commands<'a> {
    type Item = Command<'a>;

    fn next(&mut self) -> Option<Command<'a>> {
        let command = self.command();
        if command.is_none() {
            self.rest = &[];
        }
        command
    }
}
