"""The wrong bodies that tools/put-wrong-bodies-in puts into a copy of the sources, and the edits that put them in.

In the copy `rr_disk::is_put_in(N)` tells whether the wrong body of that number was chosen for a run, so one build holds
all of them. Of each edit the old text stands once in its file as the edits before have left it.
"""

# By its number what each wrong body does.
WRONG_BODIES = {
    1: "a command is acknowledged before its gate is synced",
    2: "body and gate of a record go out in one write",
    3: "records of a number that isn't expected are kept",
    4: "each table is recovered to a prefix of its own: the newest record counts, the one before it, of another table, doesn't",
    5: "a checkpoint takes pages that the present root reaches",
    6: "a gate that is shut is written when it is to be shut",
    7: "an opening makes no sync",
    8: "an opening shows a world although its sync failed",
    9: "a kept record is cleared during a later command, and put back",
    10: "a sync that failed is tried again",
    11: "`ok` is answered before the commit, which comes with the next command",
    12: "a checkpoint looks for snapshots where the last root but one had them",
    13: "the pages of a snapshot that stays are free behind the checkpoint",
    14: "a snapshot that stands is kept for one of the same count and other bytes",
    15: "a checkpoint takes the pages of the snapshots that it drops, and no others that the present root reaches",
    16: "an opening plays all kept commands of a table, and tells that it played those behind its last snapshot",
    17: "each command is refused for want of memory",
}

SWITCH = """// Which wrong body was chosen for this run.
unsafe extern "C" {
    safe fn wrong_body() -> u32;
}

pub fn is_put_in(number: u32) -> bool {
    wrong_body() == number
}
"""
SWITCH_IN_C = """#include <stdlib.h>

unsigned wrong_body(void) {
    const char *number = getenv("WRONG_BODY");
    return number == NULL ? 0 : (unsigned)atoi(number);
}
"""

HALF = "rr_pages/src/journal/half.rt"
RECORDS = "rr_store/src/recovery/records.rt"
JOURNAL = "rr_store/src/journal.rt"
TABLES = "rr_store/src/recovery/tables.rt"
# Of each edit the file under crates/, the old text and the new one.
EDITS = [
    ("rr_disk/src/lib.rt", "mod start;", "mod start;\nmod wrong;"),
    ("rr_disk/src/lib.rt", "pub use start::{Start, Unknown};", """pub use start::{Start, Unknown};
pub use wrong::is_put_in;"""),
    (HALF, "        put(disk, gate, &whole[..1])?;", """        if rr_disk::is_put_in(1) {
            rr_disk::write(disk, gate, &whole[..1])?;
        } else if !rr_disk::is_put_in(2) {
            put(disk, gate, &whole[..1])?;
        }"""),
    (HALF, "        put(disk, gate + 1, &whole[1..])?;", """        if rr_disk::is_put_in(2) {
            put(disk, gate, whole)?;
        } else {
            put(disk, gate + 1, &whole[1..])?;
        }"""),
    (HALF, "        let gate = self.next_gate();", """        if rr_disk::is_put_in(9) && self.next_slot > 0 {
            let first = gate_place(self.index, 0);
            put(disk, first, &[0])?;
            put(disk, first, &[crate::page::OPEN])?;
        }
        let gate = self.next_gate();"""),
    ("rr_pages/src/journal/reading.rt", "    if BigEndian::read_u64(&header[1..]) != number {",
     "    if BigEndian::read_u64(&header[1..]) != number && !rr_disk::is_put_in(3) {"),
    (RECORDS, "    let near_plays = replay(alloc, tables, near)?;", """
    let near_plays = if rr_disk::is_put_in(4) && far.is_empty() {
        replay_mixed(alloc, tables, near)?
    } else {
        replay(alloc, tables, near)?
    };"""),
    (RECORDS, "/// The tables, where there are far records.", """
/// Takes records, but not the last but one where another table than its own took the last one. (The tables of a run have
/// names of different first letters.)
fn replay_mixed(alloc: Global, tables: &mut Tables, records: &[Vec<u8>]) -> Result<u64, Fault> {
    let count = records.len();
    if count < 2 || records[count - 1].as_slice()[0] == records[count - 2].as_slice()[0] {
        return replay(alloc, tables, records);
    }
    let plays = replay(alloc, tables, &records[..count - 2])?;
    Ok(plays.saturating_add(replay(alloc, tables, &records[count - 1..])?))
}

/// The tables, where there are far records."""),
    ("rr_pages/src/free_pages.rt", "    taken.union(&reached.set);", """    if !rr_disk::is_put_in(5) {
        taken.union(&reached.set);
    }"""),
    ("rr_pages/src/device.rt", "    if gate[0] == OPEN {", "    if gate[0] == OPEN || rr_disk::is_put_in(6) {"),
    ("rr_log/src/opening/file.rt", "    sync(disk)?;", """    if rr_disk::is_put_in(8) {
        let _ = sync(disk);
    } else if !rr_disk::is_put_in(7) {
        sync(disk)?;
    }"""),
    ("rr_disk/src/device.rt", "    disk.sync()?;", """    if crate::is_put_in(10) && disk.sync().is_ok() {
        return Ok(());
    }
    disk.sync()?;"""),
    (JOURNAL, "        keep_record(&mut self.file, tables, self.buffer.as_slice())?;", """
        if !rr_disk::is_put_in(11) {
            keep_record(&mut self.file, tables, self.buffer.as_slice())?;
        }"""),
    (JOURNAL, "        match spell(name, request, &mut self.buffer) {", """
        if rr_disk::is_put_in(11) && !self.buffer.is_empty() {
            keep_record(&mut self.file, tables, self.buffer.as_slice())?;
        }
        match spell(name, request, &mut self.buffer) {"""),
    ("rr_log/src/ticking.rt", "                self.standing = standing;", """                if !rr_disk::is_put_in(12) || self.standing.is_empty() {
                    self.standing = standing;
                }"""),
    ("rr_checkpoint/src/plan/keeping.rt", "        keep_pages(writer, &standing.pages);",
     """        if !rr_disk::is_put_in(13) {
            keep_pages(writer, &standing.pages);
        }"""),
    ("rr_pages/src/free_pages.rt", "    /// The coming root is the present one now", """    /// What the present root reaches is taken for free.
    pub fn release(&mut self, page: u32) {
        self.taken.free(page);
    }

    /// The coming root is the present one now"""),
    ("rr_checkpoint/src/writer.rt", "    /// There will be no coming root", """    pub fn release(&mut self, page: u32) {
        self.file.free.release(page);
    }

    /// There will be no coming root"""),
    ("rr_checkpoint/src/plan/keeping.rt", "    let place = first_if_same(rest, snapshot);", """
    if rr_disk::is_put_in(15) {
        release_front(writer, standing, rest.len());
    }
    let place = first_if_same(rest, snapshot);"""),
    ("rr_checkpoint/src/plan/keeping.rt", "fn keep_place<", """// Frees the pages of these snapshots but the last so many.
fn release_front<R: Rules>(writer: &mut Writer<Worlds<R>>, standing: &[StandingSnapshot], last: usize) {
    for gone in &standing[..standing.len() - last] {
        for page in &gone.pages {
            writer.release(*page);
        }
    }
}

fn keep_place<"""),
    ("rr_checkpoint/src/plan/standing.rt", "            && self.bytes.as_slice() == snapshot.bytes.as_slice()",
     "            && (rr_disk::is_put_in(14) || self.bytes.as_slice() == snapshot.bytes.as_slice())"),
    (TABLES, "    if told.value.has_its_snapshots() {", "    if told.value.has_its_snapshots() && !rr_disk::is_put_in(16) {"),
    (TABLES, "        plays: told.plays + played.plays,", """        plays: if rr_disk::is_put_in(16) {
            told.plays
        } else {
            told.plays + played.plays
        },"""),
    ("rr_store/src/store.rt", "        let taken = self", """        if rr_disk::is_put_in(17) {
            return Err(Fault::OutOfMemory);
        }
        let taken = self"""),
]
