//! What a heap is made of, and how it works.
use crate::error::{Error, ErrorKind};
use crate::{raw, Field, Heap, Level, NewField, Object, Pool, Refusal};
use std::fmt;
use std::path::Path;
use std::sync::Arc;
use std::time::Duration;

/// What a heap is made of, and how its helper works. [`Heap::options`] makes it, and [`open`](Options::open) opens the heap. A number of records or
/// lanes that is 0 stands for its default.
///
/// ```
/// # mod scratch { include!(concat!(env!("CARGO_MANIFEST_DIR"), "/src/scratch.rs")); } use scratch::*;
/// # let path = Scratch::new("options");
/// use std::time::Duration;
/// const SEATS: Pool = Pool::new(Field(13), 64);
/// let heap = Heap::options()
///     .lanes(4)
///     .capacity(65_536)
///     .ring(65_536)
///     .objects(2)
///     .field(Field(0), Object(0), 100) // field 0: of object 0, guarded by it, at first 100
///     .transient(Field(1), Object(0), 0)
///     .guarded(NewField { owner: Object(1), guard: Object(0), first: 5, is_transient: false }) // field 2
///     .fields(10, Object(1), 0) // fields 3 to 12
///     .pool(SEATS, Object(1)) // its head, and 64 slots
///     .linger(Duration::from_millis(1))
///     .upgrades(true)
///     .log(|level, line| eprintln!("{level:?}: {line}"))
///     .open(&path)?;
/// assert_eq!(heap.lanes(), 4);
/// # Ok::<(), Error>(())
/// ```
#[derive(Clone)]
#[must_use = "a heap is opened by `open`"]
pub struct Options {
    pub(crate) objects: u32,
    pub(crate) fields: Vec<raw::Field>,
    pub(crate) lanes: u32,
    pub(crate) capacity: u32,
    pub(crate) ring: u32,
    pub(crate) linger: Duration,
    pub(crate) upgrades: bool,
    pub(crate) must_exist: bool,
    pub(crate) reverts: bool,
    pub(crate) atomic_sectors: bool,
    pub(crate) fingerprint: u64,
    pub(crate) log: Option<Arc<raw::Log>>,
    // The first mistake that the library can't see.
    mistake: Option<(Option<Refusal>, String)>,
}

impl fmt::Debug for Options {
    fn fmt(&self, f: &mut fmt::Formatter<'_>) -> fmt::Result {
        f.debug_struct("Options").field("lanes", &self.lanes).field("objects", &self.objects).field("fields", &self.fields).finish_non_exhaustive()
    }
}

impl Options {
    pub(crate) fn new() -> Options {
        Options {
            objects: 0,
            fields: Vec::new(),
            lanes: 8,
            capacity: 0,
            ring: 0,
            linger: Duration::from_millis(5),
            upgrades: false,
            must_exist: false,
            reverts: true,
            atomic_sectors: false,
            fingerprint: 0,
            log: None,
            mistake: None,
        }
    }

    /// How many sessions may be in use at once: 1 to 32, by default 8. Each takes 16 bytes a record of the file, about 40 bytes a record of
    /// memory ([`capacity`](Options::capacity)), and its [`ring`](Options::ring).
    ///
    /// A heap that is made has one lane more, for its helper: with it a round takes two syncs, or [one](Options::atomic_sectors). With 32 sessions the
    /// helper has none, and a round takes four. A heap that is there keeps its lanes. It is refused if it has fewer; if it has more, the last one is the helper's.
    pub fn lanes(mut self, lanes: u32) -> Options {
        self.lanes = lanes;
        self
    }

    /// How many records a lane's log holds: 2,000 to 1,048,576, by default as many as its [`ring`](Options::ring). A larger log helps if no
    /// thread waits for its sections, because a round then takes more at once, and while a section on which others depend stays open for long.
    /// A heap that is there keeps its own.
    pub fn capacity(mut self, records: u32) -> Options {
        self.capacity = records;
        self
    }

    /// How many records a lane's ring holds: 4,096 to 65,536, by default 16,384, and no more than its log. Each takes 24 bytes of memory. A
    /// session goes on during a round until its ring is full: a larger ring helps if syncs are slow and few threads wait for their sections.
    /// Each opening chooses anew.
    pub fn ring(mut self, records: u32) -> Options {
        self.ring = records;
        self
    }

    /// How many objects there are: 1 to 4,096, numbered from 0. Each is a monitor.
    pub fn objects(mut self, objects: u32) -> Options {
        self.objects = objects;
        self
    }

    /// Declares the next field, the object that has and guards it, and its first value. Fields are numbered from 0, and there are 1 to 16,384.
    /// [`open`](Options::open) refuses a number that isn't the next one.
    pub fn field(self, field: Field, object: Object, first: u64) -> Options {
        self.must_be_next(field).fields(1, object, first)
    }

    /// The same for a transient field: threads load and store it like any other, its stores cost the log nothing, and each opening begins with
    /// the first value again. Use it for what can be computed again: a cache, a count.
    pub fn transient(self, field: Field, object: Object, first: u64) -> Options {
        self.must_be_next(field).guarded(NewField { owner: object, guard: object, first, is_transient: true })
    }

    /// Declares so many more fields of this object, guarded by it, each with this first value.
    pub fn fields(self, count: u32, object: Object, first: u64) -> Options {
        let field = NewField { owner: object, guard: object, first, is_transient: false };
        (0..count).fold(self, |options, _| options.guarded(field))
    }

    /// Declares the next field, which another object than its owner may guard.
    pub fn guarded(mut self, field: NewField) -> Options {
        self.fields.push(field.into());
        self
    }

    /// Declares the fields of a pool with all slots free: its head is the next field, and its slots' fields follow. The object has and guards
    /// them. [`open`](Options::open) refuses a pool without a slot, or with more than 16,383.
    pub fn pool(self, pool: Pool, object: Object) -> Options {
        let mut options = self.must_be_next(pool.head());
        match pool.raw_fields(object) {
            Ok(fields) => options.fields.extend(fields),
            Err(refusal) => {
                let text = format!("open: the pool at field {} has {} slots; it may have 1 to 16,383", pool.head().0, pool.slots());
                options.mistake.get_or_insert((Some(refusal), text));
            }
        }
        options
    }

    fn must_be_next(mut self, field: Field) -> Options {
        let next = self.fields.len();
        if field.0 as usize != next {
            self.mistake.get_or_insert((None, format!("open: field {} was declared where field {next} comes next", field.0)));
        }
        self
    }

    /// How long a section that nobody waits for may lie until a round begins that makes it durable: by default 5 milliseconds. A longer time
    /// makes fewer syncs, and a crash loses more.
    pub fn linger(mut self, time: Duration) -> Options {
        self.linger = time;
        self
    }

    /// Whether a heap of an older version is upgraded in place: by default it isn't, and is refused with [`Refusal::OldVersion`]. An older library
    /// can't open it afterwards.
    pub fn upgrades(mut self, upgrades: bool) -> Options {
        self.upgrades = upgrades;
        self
    }

    /// Opens a heap that is there, and makes none: without a heap, [`open`](Options::open) fails with [`ErrorKind::NoHeap`], and no file is made
    /// or changed. So a service whose volume isn't mounted doesn't begin with a fresh heap. If there is no file, the error's
    /// [source](std::error::Error::source) is the system's `NotFound`.
    ///
    /// ```
    /// # use zelamiku::{ErrorKind, Heap, Object};
    /// let error = Heap::options().objects(1).fields(1, Object(0), 100).existing().open("no such file").unwrap_err();
    /// assert_eq!(error.kind(), ErrorKind::NoHeap);
    /// ```
    pub fn existing(mut self) -> Options {
        self.must_exist = true;
        self
    }

    /// A number that the program chooses, and a heap keeps from its making on. An opening with another number fails with [`ErrorKind::OtherHeap`]
    /// ([`Part::Fingerprint`](crate::Part::Fingerprint)). So a program whose fields are numbered in another way doesn't swap their values. 0 is none.
    /// The number takes one transient field after the program's. A heap without a number is opened by any; a heap with one is refused if the
    /// options have none ([`Part::Fields`](crate::Part::Fields)).
    ///
    /// ```
    /// # mod scratch { include!(concat!(env!("CARGO_MANIFEST_DIR"), "/src/scratch.rs")); } use scratch::*;
    /// # let path = Scratch::new("fingerprint");
    /// let options = Heap::options().objects(1).field(Field(0), Object(0), 100);
    /// options.clone().fingerprint(7).open(&path)?.close()?;
    /// options.clone().fingerprint(7).open(&path)?.close()?;
    /// assert_eq!(options.fingerprint(8).open(&path).unwrap_err().kind(), ErrorKind::OtherHeap);
    /// # Ok::<(), Error>(())
    /// ```
    pub fn fingerprint(mut self, number: u64) -> Options {
        self.fingerprint = number;
        self
    }

    /// The [`fingerprint`](Options::fingerprint) of these names in this order: those of the fields, or of objects and fields, with whatever else
    /// each program has to agree on (`"alice.balance: cents"`). A program that has renamed, exchanged or inserted a field is refused then.
    ///
    /// It is the FNV-1a hash, of 64 bits, of the names' UTF-8 with a byte `ff` between each two, or 1 if that is 0. Of `["alice", "bob"]` it is
    /// `0xe79b_2629_bc40_13b3`.
    ///
    /// ```
    /// # mod scratch { include!(concat!(env!("CARGO_MANIFEST_DIR"), "/src/scratch.rs")); } use scratch::*;
    /// # let path = Scratch::new("names");
    /// let options = Heap::options().objects(2).field(Field(0), Object(0), 100).field(Field(1), Object(1), 100);
    /// options.clone().names(&["alice", "bob"]).open(&path)?.close()?;
    /// let error = options.names(&["bob", "alice"]).open(&path).unwrap_err();
    /// assert_eq!(error.kind(), ErrorKind::OtherHeap);
    /// # Ok::<(), Error>(())
    /// ```
    pub fn names(self, names: &[&str]) -> Options {
        // UTF-8 has no byte ff.
        let names: Vec<&[u8]> = names.iter().map(|name| name.as_bytes()).collect();
        let hash = names.join(&0xff).into_iter().fold(0xcbf2_9ce4_8422_2325, |hash: u64, byte| {
            (hash ^ u64::from(byte)).wrapping_mul(0x100_0000_01b3)
        });
        self.fingerprint(hash.max(1))
    }

    /// Whether a section that fails is taken back: by default it is. The heap then takes 24 bytes of memory a lane and field, and keeps one of a
    /// section's 1,000 records for the old value of each field that it stores to: so it can store to 499 fields under one monitor.
    ///
    /// With `false` it has room for 998 stores. A section that fails after a store then stops the heap ([`ErrorKind::Abandoned`]), and the next
    /// opening drops it.
    ///
    /// ```
    /// # mod scratch { include!(concat!(env!("CARGO_MANIFEST_DIR"), "/src/scratch.rs")); } use scratch::*;
    /// # let path = Scratch::new("without");
    /// let options = Heap::options().objects(1).field(Field(0), Object(0), 100).reverts(false);
    /// let heap = options.clone().open(&path)?;
    /// let mut session = heap.session()?;
    /// let failed = session.synchronized(Object(0), |s| {
    ///     s.store(Field(0), 90)?;
    ///     s.load(Field(7)) // there is no such field
    /// });
    /// assert!(failed.is_err());
    /// assert_eq!(session.durable().unwrap_err().kind(), ErrorKind::Abandoned);
    /// drop((session, heap));
    /// assert_eq!(options.open(&path)?.session()?.synchronized(Object(0), |s| s.load(Field(0)))?, 100);
    /// # Ok::<(), Error>(())
    /// ```
    pub fn reverts(mut self, reverts: bool) -> Options {
        self.reverts = reverts;
        self
    }

    /// Whether a heap that is made gets a journal, so that a round takes one sync in place of two: by default it doesn't. Ask for it only where the
    /// storage keeps each sector of 512 bytes whole when the power fails, as NVMe with power-loss protection and Ceph RBD do. Elsewhere such a heap
    /// may lose what was durable, and nothing notices. A heap that is there keeps what it has: [`Stats::one_sync_rounds`](crate::Stats) tells.
    ///
    /// ```
    /// # mod scratch { include!(concat!(env!("CARGO_MANIFEST_DIR"), "/src/scratch.rs")); } use scratch::*;
    /// # let path = Scratch::new("atomic");
    /// let heap = Heap::options().objects(1).field(Field(0), Object(0), 100).atomic_sectors(true).open(&path)?;
    /// let mut session = heap.session()?;
    /// session.synchronized(Object(0), |s| s.store(Field(0), 90))?;
    /// session.durable()?;
    /// assert_eq!(heap.stats()?.one_sync_rounds, 1);
    /// # Ok::<(), Error>(())
    /// ```
    pub fn atomic_sectors(mut self, atomic: bool) -> Options {
        self.atomic_sectors = atomic;
        self
    }

    /// Calls the hook with each line that the heap reports. The caller is the helper's thread, a thread that opens, closes, copies or waits for a
    /// round, or one that has slept for a monitor for a second. The hook must not call anything of this heap. If it panics, the panic ends there.
    pub fn log(mut self, hook: impl Fn(Level, &str) + Send + Sync + 'static) -> Options {
        self.log = Some(Arc::new(hook));
        self
    }

    /// Opens the heap of the file, and recovers it. Makes one if there is no file, or a free one: it is empty, has only zeros, or its making was
    /// cut off. The file stays locked while the heap is open. It has to fit: as many objects and fields, each with this owner, guard and mark of
    /// a transient field, and at least as many lanes.
    ///
    /// It fails with [`File`](ErrorKind::File), [`Busy`](ErrorKind::Busy), [`NoHeap`](ErrorKind::NoHeap), [`NotAHeap`](ErrorKind::NotAHeap),
    /// [`DamagedFile`](ErrorKind::DamagedFile), [`OtherHeap`](ErrorKind::OtherHeap) or [`Opening`](ErrorKind::Opening). No file is left where there
    /// was none, and a file that was there is as it was, with the exceptions of `File`.
    ///
    /// ```
    /// # mod scratch { include!(concat!(env!("CARGO_MANIFEST_DIR"), "/src/scratch.rs")); } use scratch::*;
    /// # let path = Scratch::new("open");
    /// std::fs::write(&path, "notes")?;
    /// let error = Heap::options().objects(1).field(Field(0), Object(0), 0).open(&path).unwrap_err();
    /// assert_eq!(error.kind(), ErrorKind::NotAHeap);
    /// assert_eq!(std::fs::read(&path)?, b"notes");
    /// # Ok::<(), std::io::Error>(())
    /// ```
    pub fn open(mut self, path: impl AsRef<Path>) -> Result<Heap, Error> {
        let path: Arc<Path> = path.as_ref().into();
        match self.mistake.take() {
            Some((refusal, text)) => Err(Error::told(ErrorKind::Opening, &path, refusal, &text)),
            None => Heap::open(path, self),
        }
    }
}
