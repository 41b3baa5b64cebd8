//! Why a call failed.
use crate::raw::{self, Report};
use crate::{Field, Refusal};
use std::fmt;
use std::io;
use std::path::Path;
use std::sync::Arc;

/// What kind of failure it is, and whether the heap goes on.
#[non_exhaustive]
#[derive(Clone, Copy, Debug, PartialEq, Eq)]
pub enum ErrorKind {
    /// The file couldn't be opened, locked, read, made or written. It is as it was, with two exceptions: if a new heap's folder can't be synced, a
    /// free file may have the heap; and after a write or a sync that failed, the heap may have been recovered already. Open it again.
    File,
    /// Another process has the heap of the file, or this one has it open already; or the file was replaced or removed while it was opened.
    Busy,
    /// There is no file, or a free one, and [`Options::existing`](crate::Options::existing) forbids to make a heap. Nothing was made.
    NoHeap,
    /// The file has other bytes than a heap's, or a heap whose first bytes were damaged. The file is as it was.
    NotAHeap,
    /// The file has a heap that can't be read: something else has written it, it was cut, or its disk has lost what it had synced. The text
    /// names the damaged part. The file is as it was: restore a back-up.
    DamagedFile,
    /// The file has another heap than the options say: [`Error::difference`] has the first difference. The file is as it was.
    OtherHeap,
    /// The heap can't be opened or made as the options say, or for want of memory: [`Error::refusal`] says why. The file is as it was.
    Opening,
    /// All lanes are in use: a session is free once another one is dropped.
    NoneLeft,
    /// The call was refused, and did nothing: [`Error::refusal`] says why. The heap and the session go on.
    Refused,
    /// The section was taken back before, because a nested work has failed or a nested guard was dropped without
    /// [`exit`](crate::Held::exit). The call did nothing: the section stores nothing more, and ends as one that has stored nothing. The heap
    /// goes on.
    Reverted,
    /// A write to the file failed, for example because the disk is full. Nothing is lost, and nothing more becomes durable meanwhile: the
    /// next call that waits for a round makes the write again, and so does the helper, each second.
    Write,
    /// A section is open, or a session waits: the heap wasn't closed, and goes on.
    Running,
    /// The heap was closed or stopped.
    Closed,
    /// A sync has failed, the last write of a [`stop`](crate::Heap::stop) has, or the program has closed the heap's descriptor. What wasn't
    /// durable may be lost, though the file may still read as it was written. Open the heap again; if that fails, mount the file system again
    /// first.
    Lost,
    /// The heap has stopped, mostly because there was no memory: [`Error::refusal`] says why. What was durable stays. Open it again.
    Stopped,
    /// A section that couldn't be taken back has failed ([`Session::synchronized`](crate::Session::synchronized) says when), or a session was
    /// dropped whose guard was forgotten. The next opening drops that section, with all that depends on it; all other sections that had
    /// ended were made durable.
    Abandoned,
    /// This process is a forked child, and the heap is its parent's, which goes on.
    Forked,
}

impl ErrorKind {
    /// Whether the heap has ended: each later call on it fails with the same kind, and it may be opened again. What was durable stays.
    ///
    /// ```
    /// use zelamiku::ErrorKind;
    /// assert!(ErrorKind::Lost.is_final());
    /// assert!(!ErrorKind::Write.is_final());
    /// ```
    #[must_use]
    pub fn is_final(self) -> bool {
        use ErrorKind::*;
        matches!(self, Closed | Lost | Stopped | Abandoned | Forked)
    }

    // Of an opening that failed.
    fn of_opening(refusal: Refusal) -> ErrorKind {
        match refusal {
            Refusal::Device | Refusal::Lost => ErrorKind::File,
            Refusal::Busy => ErrorKind::Busy,
            Refusal::NoHeap => ErrorKind::NoHeap,
            Refusal::NotFormatted => ErrorKind::NotAHeap,
            Refusal::DamagedFile => ErrorKind::DamagedFile,
            Refusal::OtherHeap => ErrorKind::OtherHeap,
            _ => ErrorKind::Opening,
        }
    }

    // Of a call on a heap.
    fn of(refusal: Refusal) -> ErrorKind {
        match refusal {
            Refusal::NoneLeft => ErrorKind::NoneLeft,
            Refusal::Device => ErrorKind::Write,
            Refusal::Running => ErrorKind::Running,
            // Nothing: another heap has the place of this one, which was closed.
            Refusal::Closed | Refusal::Nothing => ErrorKind::Closed,
            Refusal::Lost => ErrorKind::Lost,
            Refusal::Failed | Refusal::Worn => ErrorKind::Stopped,
            Refusal::Abandoned => ErrorKind::Abandoned,
            Refusal::Forked => ErrorKind::Forked,
            _ => ErrorKind::Refused,
        }
    }
}

/// How the file's heap differs from the one that was asked for: the first difference, and both numbers.
#[derive(Clone, Copy, Debug, PartialEq, Eq)]
pub struct Difference {
    /// What differs.
    pub part: Part,
    /// What the file's heap has there.
    pub has: u64,
    /// What was asked for.
    pub planned: u64,
}

/// A part of a heap in which two heaps may differ.
#[non_exhaustive]
#[derive(Clone, Copy, Debug, PartialEq, Eq)]
pub enum Part {
    /// The file's heap has fewer lanes.
    Lanes,
    /// How many objects there are.
    Objects,
    /// How many fields there are.
    Fields,
    /// Which object has this field.
    Owner(Field),
    /// Which object guards this field.
    Guard(Field),
    /// Whether this field is transient: 1 or 0.
    Transient(Field),
    /// The [fingerprint](crate::Options::fingerprint).
    Fingerprint,
}

impl Difference {
    fn of(report: &Report) -> Option<Difference> {
        let part = match report.difference {
            1 => Part::Lanes,
            2 => Part::Objects,
            3 => Part::Fields,
            4 => Part::Owner(Field(report.field)),
            5 => Part::Guard(Field(report.field)),
            6 => Part::Transient(Field(report.field)),
            7 => Part::Fingerprint,
            _ => return None,
        };
        Some(Difference { part, has: report.has, planned: report.planned })
    }
}

struct Inner {
    kind: ErrorKind,
    path: Arc<Path>,
    // What was called, what went wrong, and the cure.
    text: String,
    refusal: Option<Refusal>,
    system: Option<io::Error>,
    difference: Option<Difference>,
}

/// Why a call failed: the kind, the path of the heap's file, and the cause. It reads as `PATH: CALL: CAUSE; CURE`.
///
/// ```
/// use std::error::Error;
/// use zelamiku::{ErrorKind, Heap, Object, Refusal};
/// let error = Heap::options().objects(1).fields(1, Object(0), 0).open("/no such folder/heap").unwrap_err();
/// assert_eq!((error.kind(), error.refusal()), (ErrorKind::File, Some(Refusal::Device)));
/// assert_eq!(error.path().to_str(), Some("/no such folder/heap"));
/// assert!(error.source().is_some());
/// assert!(error.to_string().starts_with("/no such folder/heap: open: it can't be opened: No such file"));
/// ```
#[derive(Clone)]
pub struct Error(Arc<Inner>);

impl Error {
    // Of what this crate refuses by itself.
    pub(crate) fn told(kind: ErrorKind, path: &Arc<Path>, refusal: Option<Refusal>, text: &str) -> Error {
        Error(Arc::new(Inner { kind, path: Arc::clone(path), text: text.to_owned(), refusal, system: None, difference: None }))
    }

    // The thread that wakes tasks can't be started.
    pub(crate) fn no_thread(path: &Arc<Path>, error: io::Error) -> Error {
        let (kind, path) = (ErrorKind::Refused, Arc::clone(path));
        let text = format!("await: the thread that wakes tasks can't be started: {error}; await the sections again");
        Error(Arc::new(Inner { kind, path, text, refusal: None, system: Some(error), difference: None }))
    }

    // Of this thread's last call, which has failed.
    fn last(kind: ErrorKind, path: &Arc<Path>, refusal: Refusal, difference: Option<Difference>) -> Error {
        let (call, cause, number, cure) = raw::failure();
        let system = (number != 0).then(|| io::Error::from_raw_os_error(number));
        let mut text = format!("{call}: {cause}");
        for (before, more) in [(": ", system.as_ref().map(io::Error::to_string)), ("; ", Some(cure))] {
            if let Some(more) = more.filter(|more| !more.is_empty()) {
                text = text + before + &more;
            }
        }
        Error(Arc::new(Inner { kind, path: Arc::clone(path), text, refusal: Some(refusal), system, difference }))
    }

    // On a heap that was opened.
    #[cold]
    pub(crate) fn of(path: &Arc<Path>, status: u32) -> Error {
        let refusal = Refusal::from(status);
        Error::last(ErrorKind::of(refusal), path, refusal, None)
    }

    // The same, if a status that also stands for a heap's end is only that of a monitor or a lane.
    pub(crate) fn refused(path: &Arc<Path>, status: u32) -> Error {
        Error::last(ErrorKind::Refused, path, Refusal::from(status), None)
    }

    pub(crate) fn of_opening(path: &Arc<Path>, status: u32, report: &Report) -> Error {
        let refusal = Refusal::from(status);
        Error::last(ErrorKind::of_opening(refusal), path, refusal, Difference::of(report))
    }

    /// What kind of failure it is.
    #[must_use]
    pub fn kind(&self) -> ErrorKind {
        self.0.kind
    }

    /// The path of the heap's file, as it was given to `open`; of a copy that failed, the copy's.
    #[must_use]
    pub fn path(&self) -> &Path {
        &self.0.path
    }

    /// The library's status, unless this crate has refused the call by itself.
    #[must_use]
    pub fn refusal(&self) -> Option<Refusal> {
        self.0.refusal
    }

    /// How the file's heap differs from the one that was asked for, after [`ErrorKind::OtherHeap`].
    ///
    /// ```
    /// # mod scratch { include!(concat!(env!("CARGO_MANIFEST_DIR"), "/src/scratch.rs")); } use scratch::*;
    /// # let path = Scratch::new("difference");
    /// Heap::options().objects(1).field(Field(0), Object(0), 100).open(&path)?.close()?;
    /// let error = Heap::options().objects(2).field(Field(0), Object(0), 100).open(&path).unwrap_err();
    /// assert_eq!(error.difference(), Some(Difference { part: Part::Objects, has: 1, planned: 2 }));
    /// # Ok::<(), Error>(())
    /// ```
    #[must_use]
    pub fn difference(&self) -> Option<Difference> {
        self.0.difference
    }
}

impl fmt::Display for Error {
    fn fmt(&self, f: &mut fmt::Formatter<'_>) -> fmt::Result {
        write!(f, "{}: {}", self.0.path.display(), self.0.text)
    }
}

impl fmt::Debug for Error {
    fn fmt(&self, f: &mut fmt::Formatter<'_>) -> fmt::Result {
        write!(f, "{:?} ({self})", self.0.kind)
    }
}

impl std::error::Error for Error {
    /// The system's error ([`io::Error`]), or the library's [`Refusal`].
    fn source(&self) -> Option<&(dyn std::error::Error + 'static)> {
        match (&self.0.system, &self.0.refusal) {
            (Some(error), _) => Some(error),
            (None, Some(refusal)) => Some(refusal),
            (None, None) => None,
        }
    }
}
