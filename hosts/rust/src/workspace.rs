use crate::lists::{put_list, roots_in, too_long};
use crate::target::Target;
use crate::{raw, JobRefusal, Refusal, RootRefusal, DEFAULT_LIMIT, OPENING_NOTICES};
use std::fmt;

// No record tape is longer: two groups, and eight records of three bytes.
const RECORDS: usize = 32;

/// Memory for whole jobs, which goes from job to job and is neither cleared nor shown.
#[derive(Clone)]
pub struct Workspace {
    list: Vec<u8>,
    calls: Target,
    notices: Target,
    limit: usize,
}

impl Default for Workspace {
    fn default() -> Workspace {
        Workspace::with_limit(DEFAULT_LIMIT)
    }
}

// The bytes are those of earlier jobs.
impl fmt::Debug for Workspace {
    fn fmt(&self, f: &mut fmt::Formatter<'_>) -> fmt::Result {
        f.debug_struct("Workspace").field("limit", &self.limit).finish_non_exhaustive()
    }
}

/// What a whole job gave: the calls of its roots, and the notices of its opening and of its roots.
#[derive(Clone, Copy, Debug)]
pub struct Output<'w> {
    pub calls: &'w [u8],
    pub notices: &'w [u8],
    records: [u8; RECORDS],
    size: usize,
}

impl Output<'_> {
    pub fn records(&self) -> &[u8] {
        &self.records[..self.size]
    }
}

impl Workspace {
    /// Memory for jobs whose calls take at most so many bytes, and their notices as many. A job that would go beyond it is refused by `Refusal::Limit`: at a root, or
    /// at its opening where the opening's own notices do.
    pub fn with_limit(bytes: usize) -> Workspace {
        let (calls, notices) = (Target::default(), Target::default());
        Workspace { list: Vec::new(), calls, notices, limit: bytes }
    }

    /// A job from its opening tape to its records: the quickest way, where no root waits for what another gave.
    pub fn lower<R: AsRef<[u8]>>(
        &mut self,
        text: &[u8],
        tape: &[u8],
        roots: &[R],
    ) -> Result<Output<'_>, JobRefusal> {
        let too_long = too_long(roots);
        put_list(&roots[..too_long.unwrap_or(roots.len())], &mut self.list);
        self.make_room(text);
        let mut records = [0; RECORDS];
        loop {
            let (calls, notices) = (self.calls.lent(self.limit), self.notices.lent(self.limit));
            let (run, answer) = raw::job(text, tape, &self.list, calls, notices, &mut records);
            let at = |index, refusal| JobRefusal::Root(RootRefusal { index, refusal });
            match (run.stage, answer) {
                (0, Err(refusal)) => self.grow(&run, refusal).map_err(JobRefusal::Opening)?,
                (1, Err(refusal)) => {
                    self.grow(&run, refusal).map_err(|refusal| at(run.taken, refusal))?
                }
                (_, Err(refusal)) => return Err(JobRefusal::Records(refusal)),
                (_, Ok(())) => match too_long {
                    Some(index) => return Err(at(index, Refusal::TooLong)),
                    None => {
                        return Ok(Output {
                            calls: &self.calls.bytes[..run.call_fill],
                            notices: &self.notices.bytes[..run.notice_fill],
                            records,
                            size: run.figure,
                        })
                    }
                },
            }
        }
    }

    fn make_room(&mut self, text: &[u8]) {
        let (size, list) = (self.list.len(), &self.list);
        let bound = || roots_in(list).map(raw::call_room).sum();
        self.calls.make_room_for(size, text.len(), bound, self.limit);
        let _ = self.notices.make_room(OPENING_NOTICES + size, self.limit);
    }

    // The room that the opening asks for, or a root behind what was written before it, which is written again with it.
    fn grow(&mut self, run: &raw::JobRun, refusal: Refusal) -> Result<(), Refusal> {
        match refusal {
            Refusal::Space { needed } => self.calls.make_room(run.call_fill + needed, self.limit),
            Refusal::NoticeSpace { needed } => {
                self.notices.make_room(run.notice_fill + needed, self.limit)
            }
            refusal => Err(refusal),
        }
    }
}
