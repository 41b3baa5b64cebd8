//! Moves 10 from one account to another, each time that it runs.
use zelamiku::{Field, Heap, Object};

// Two objects, which are locks, and a field of 64 bits of each, its balance.
const ALICE: Object = Object(0);
const BOB: Object = Object(1);
const ALICES: Field = Field(0);
const BOBS: Field = Field(1);

fn main() -> Result<(), Box<dyn std::error::Error>> {
    // Made, or recovered; for 8 threads.
    let heap = Heap::options().lanes(8).objects(2).field(ALICES, ALICE, 100).field(BOBS, BOB, 0).open("accounts.heap")?;
    let mut session = heap.session()?; // one for each thread
    session.synchronized_all(&[ALICE, BOB], |s| { // a section
        let (from, to) = (s.load(ALICES)?, s.load(BOBS)?);
        if from >= 10 {
            s.store(ALICES, from - 10)?;
            s.store(BOBS, to + 10)?;
        }
        Ok::<_, zelamiku::Error>(()) // returning an error takes the section back; any type that `?` can convert this one to will do
    })?;
    session.durable()?; // returns when no crash can lose it
    heap.close()?;
    Ok(())
}
