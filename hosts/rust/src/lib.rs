//! Lowers JSX, given as tapes over a text, to calls, notices and import records. A safe wrapper around `libjsxlib.a`, whose entries are proved.
//!
//! ```
//! use jsx_lowering::{Job, Settings};
//!
//! let settings = Settings { module: true, ..Settings::default() };
//! let mut job = Job::open(b"a", &settings.tape())?;
//! // <a/> in a function, at line 0, column 0
//! let root = [1, 0, 2, 3, 0x10, 0, 0, 0, 0, 0, 0, 0, 0, 0x20, 0, 0, 1, 0, 0x1e, 0x1f];
//! let lowered = job.lower_root(&root)?;
//! assert_eq!(lowered.calls[..2], [0x80, 0x01]);
//! assert_eq!(job.records()?, [0xb0, 1, 0xb1, 2, 0]);
//! # Ok::<(), jsx_lowering::Refusal>(())
//! ```

#[cfg(not(all(target_arch = "x86_64", target_os = "linux")))]
compile_error!("libjsxlib.a is compiled for x86-64 Linux");

mod lists;
mod notice;
mod raw;
mod refusal;
mod resolved;
mod settings;
mod target;
mod workspace;

use lists::{behind, put_list, roots_in, too_long};
pub use notice::Notice;
pub use refusal::{JobRefusal, Refusal, RootRefusal};
use resolved::SETTINGS_SIZE;
pub use resolved::{Mode, PragmaForm, PragmaRoot, ResolvedSettings};
pub use settings::{Settings, Span};
use target::Target;
pub use workspace::{Output, Workspace};

/// How many bytes a job's state has.
pub const STATE_SIZE: usize = 102;

/// How many bytes the calls of a job may take, and as many its notices, unless another limit is set: 64 MiB. A root whose texts overlap can ask for
/// thousands of times its own size; without overlaps it takes at most four bytes for each of its tape and six for each of the text.
pub const DEFAULT_LIMIT: usize = 64 << 20;

// No opening tells more: two notices of five bytes.
const OPENING_NOTICES: usize = 10;

/// A job over a text: its state, and what its opening and its roots gave so far.
#[derive(Clone, Debug)]
pub struct Job<'t> {
    text: &'t [u8],
    state: [u8; STATE_SIZE],
    calls: Target,
    notices: Target,
    limit: usize,
}

/// What a root, or several in turn, added; the opening's notices are not among these.
#[derive(Clone, Copy, Debug, PartialEq, Eq)]
pub struct Lowered<'j> {
    pub calls: &'j [u8],
    pub notices: &'j [u8],
}

impl<'t> Job<'t> {
    /// Opens a job over a text by an opening tape, as `Settings::tape` makes one. Where a pragma of a classic job is not valid the opening tells so, and
    /// `notices` has that from the beginning on (`Notice::InvalidPragma`).
    pub fn open(text: &'t [u8], tape: &[u8]) -> Result<Job<'t>, Refusal> {
        Job::open_in(text, tape, (Vec::new(), Vec::new()))
    }

    fn over(text: &'t [u8], state: [u8; STATE_SIZE], calls: Target, notices: Target) -> Job<'t> {
        Job { text, state, calls, notices, limit: DEFAULT_LIMIT }
    }

    /// Sets how many bytes the calls of all roots may take, and as many the notices of the opening and of all roots. A root that would go beyond it is refused by
    /// `Refusal::Limit`. The opening's notices, ten bytes at the most, stand already and stay.
    pub fn set_limit(&mut self, bytes: usize) {
        self.limit = bytes;
    }

    /// The same with memory that another job gave back (`into_buffers`), which is neither cleared nor shown. The opening's notices go to the front of that for
    /// notices, which grows where it is shorter.
    pub fn open_in(
        text: &'t [u8],
        tape: &[u8],
        (calls, notices): (Vec<u8>, Vec<u8>),
    ) -> Result<Job<'t>, Refusal> {
        let (mut state, mut told) = ([0; STATE_SIZE], [0; OPENING_NOTICES]);
        raw::open(text, tape, &mut state, &mut told)?;
        let (_, filled) = raw::fills(&state)?;
        let (calls, notices) = (Target::over(calls), Target::beginning(notices, &told[..filled]));
        Ok(Job::over(text, state, calls, notices))
    }

    /// A job taken up again, from the bytes of its state and from its calls and notices so far. Refused as forged are, here, bytes that are no state's and
    /// fills that are not the lengths of these tapes, and by the next entry a state that the text does not bear out. That is no proof that the state is
    /// this job's: one with another flag, or with the records of other roots, is taken for what it says. Keep states where only this program writes.
    pub fn resume(
        text: &'t [u8],
        state: &[u8],
        calls: Vec<u8>,
        notices: Vec<u8>,
    ) -> Result<Job<'t>, Refusal> {
        let state: [u8; STATE_SIZE] = state.try_into().map_err(|_| Refusal::Forged)?;
        let fills = raw::fills(&state)?;
        if fills != (calls.len(), notices.len()) {
            return Err(Refusal::Forged);
        }
        Ok(Job::over(text, state, Target::filled(calls), Target::filled(notices)))
    }

    /// Lowers a root. A refusal leaves the job as it was.
    pub fn lower_root(&mut self, root: &[u8]) -> Result<Lowered<'_>, Refusal> {
        let (calls, notices) = (self.calls.filled, self.notices.filled);
        self.make_room(root.len(), || raw::call_room(root));
        while let Err(refusal) = self.lower_into_targets(root) {
            self.grow(refusal)?;
        }
        (self.calls.filled, self.notices.filled) = raw::fills(&self.state)?;
        Ok(Lowered {
            calls: &self.calls.written()[calls..],
            notices: &self.notices.written()[notices..],
        })
    }

    // Room for all that roots of this size can give.
    fn make_room(&mut self, size: usize, call_room: impl FnOnce() -> usize) {
        self.calls.make_room_for(size, self.text.len(), call_room, self.limit);
        let _ = self.notices.make_room(size, self.limit);
    }

    // Makes the room that a refusal asks for. Any other refusal stands.
    fn grow(&mut self, refusal: Refusal) -> Result<(), Refusal> {
        match refusal {
            Refusal::Space { needed } => self.calls.make_room(needed, self.limit),
            Refusal::NoticeSpace { needed } => self.notices.make_room(needed, self.limit),
            refusal => Err(refusal),
        }
    }

    fn lower_into_targets(&mut self, root: &[u8]) -> Result<(), Refusal> {
        let (calls, notices) = (self.calls.lent(self.limit), self.notices.lent(self.limit));
        raw::root(self.text, &mut self.state, root, calls, notices)
    }

    /// Lowers roots in turn, up to the first that is refused, which leaves the job as those before it made it. The text is tested once for all of
    /// them, while `lower_root` tests it for each. Where all roots are at hand from the beginning, `Workspace::lower` is quicker still.
    pub fn lower_roots<R: AsRef<[u8]>>(&mut self, roots: &[R]) -> Result<Lowered<'_>, RootRefusal> {
        let (calls, notices) = (self.calls.filled, self.notices.filled);
        let too_long = too_long(roots);
        let mut list = Vec::new();
        put_list(&roots[..too_long.unwrap_or(roots.len())], &mut list);
        self.lower_list(&list)?;
        if let Some(index) = too_long {
            return Err(RootRefusal { index, refusal: Refusal::TooLong });
        }
        Ok(Lowered {
            calls: &self.calls.written()[calls..],
            notices: &self.notices.written()[notices..],
        })
    }

    // Where there is no room for a root, the list goes on from there with more.
    fn lower_list(&mut self, mut list: &[u8]) -> Result<(), RootRefusal> {
        self.make_room(list.len(), || roots_in(list).map(raw::call_room).sum());
        let mut index = 0;
        loop {
            let (calls, notices) = (self.calls.lent(self.limit), self.notices.lent(self.limit));
            let (taken, answer) = raw::roots(self.text, &mut self.state, list, calls, notices);
            index += taken;
            list = behind(list, taken);
            let refused = |refusal| RootRefusal { index, refusal };
            (self.calls.filled, self.notices.filled) = raw::fills(&self.state).map_err(refused)?;
            match answer {
                Ok(()) => return Ok(()),
                Err(refusal) => self.grow(refusal).map_err(refused)?,
            }
        }
    }

    /// The record tape: the imports, requires and file name that the calls so far mention.
    pub fn records(&self) -> Result<Vec<u8>, Refusal> {
        fitted(|target| raw::records(self.text, &self.state, target))
    }

    /// The settings as they stand after the comments, and the sources of imports as text.
    pub fn settings(&self) -> Result<ResolvedSettings, Refusal> {
        let mut bytes = [0; SETTINGS_SIZE];
        raw::settings(self.text, &self.state, &mut bytes)?;
        Ok(ResolvedSettings::read(&bytes, self.source(0)?, self.source(1)?))
    }

    fn source(&self, number: u8) -> Result<String, Refusal> {
        let bytes = fitted(|target| raw::source(self.text, &self.state, number, target))?;
        // the library has tested that the text is UTF-8 and that no span cuts a character
        Ok(String::from_utf8_lossy(&bytes).into_owned())
    }

    /// The calls of all roots so far.
    pub fn calls(&self) -> &[u8] {
        self.calls.written()
    }

    /// The notices of the opening, and behind them those of all roots so far. `Notice::read_all` reads them.
    pub fn notices(&self) -> &[u8] {
        self.notices.written()
    }

    /// The calls of all roots, and the notices of the opening and of all roots.
    pub fn into_tapes(self) -> (Vec<u8>, Vec<u8>) {
        (self.calls.into_written(), self.notices.into_written())
    }

    /// The memory of the targets, for `open_in`.
    pub fn into_buffers(self) -> (Vec<u8>, Vec<u8>) {
        (self.calls.bytes, self.notices.bytes)
    }

    /// The state, to be kept with the calls and notices for `Job::resume`.
    pub fn state(&self) -> &[u8; STATE_SIZE] {
        &self.state
    }
}

// What an entry writes that tells how much room it wants.
fn fitted(write: impl Fn(&mut [u8]) -> Result<usize, Refusal>) -> Result<Vec<u8>, Refusal> {
    let mut target = vec![0; 32];
    let size = match write(&mut target) {
        Err(Refusal::Space { needed }) => {
            target.resize(needed, 0);
            write(&mut target)?
        }
        outcome => outcome?,
    };
    target.truncate(size);
    Ok(target)
}
