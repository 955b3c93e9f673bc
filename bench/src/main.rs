//! The original and this core over the same buffers, in turn, in one run: the best of several, and their ratio.
//!
//!     bench FOLDER_OF_STREAMS [PART]            the tables, of the lines whose names have a part
//!     bench FOLDER_OF_STREAMS [PART] --count    runs each side of a line once, on small streams, and tells which is next

mod buffers;
mod checks;
#[path = "../../oracle/src/entries/entry.rs"]
#[allow(dead_code)] // no patch here
mod entry;
mod heap;
mod memory;
mod offers;
mod searches;
mod table;
mod timing;

#[global_allocator]
static HEAP: heap::Heap = heap::Heap;

/// The streams that the buffers are made of.
struct Streams {
    one: Vec<u8>,
    two: Vec<u8>,
    fields: Vec<u8>,
}

fn main() {
    let (count, names): (Vec<_>, Vec<_>) = std::env::args().skip(1).partition(|a| a == "--count");
    let folder = names.first().expect("usage: bench FOLDER_OF_STREAMS [PART] [--count]");
    let read = |name: &str| std::fs::read(format!("{folder}/{name}")).expect(name);
    let streams = Streams { one: read("mpeg1-25.m1v"), two: read("mpeg2-25.m2v"), fields: read("fields.m2v") };
    let pick = table::Pick { part: names.get(1).cloned().unwrap_or_default(), count: !count.is_empty() };
    if !pick.count {
        memory::table(&pick);
    }
    checks::table(&streams, &pick);
    offers::table(&streams.two, &pick);
    offers::withdrawal_table(&streams.two, &pick);
    searches::table(&streams, &pick);
}
