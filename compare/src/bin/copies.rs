//! Counts what one accepted call of the static library copies and clears. On an empty store, where all that is copied
//! is the books and what is made of them.

#[path = "../counted.rs"]
mod counted;

use compare::{books_of, measured, Areas};
use counted::{counted, LARGE};
use model::call::Call;
use model::store::Store;
use model::visible::Reader;

fn main() {
    let mut store = Store::new(5);
    for call in [Call::Begin, Call::Open { epoch: 0 }] {
        assert!(call.run(&mut store, &mut []).is_ok());
    }
    let scan = |reader| Call::Scan { reader, partition: 0, lent: 64 };
    let list = [
        ("make new", Call::New { start: 1 }),
        ("begin", Call::Begin),
        ("append", Call::Append { epoch: 5, partition: 0, rows: vec![1, 2, 3] }),
        ("clear", Call::Clear { epoch: 5, partition: 0 }),
        ("commit", Call::Commit { epoch: 5 }),
        ("roll back", Call::Rollback { epoch: 5 }),
        ("open a page", Call::Open { epoch: 0 }),
        ("close a page", Call::Close { ticket: 1 }),
        ("scan by a load", scan(Reader::Rw(5))),
        ("scan by a page", scan(Reader::Ro(1))),
        ("move LSE", Call::MoveLse { target: 0 }),
        ("purge", Call::Purge { partition: 0 }),
        ("save", Call::Save { epoch: 4, lent: 24 }),
        ("recover", Call::Recover { file: store.round_at(4).bytes() }),
    ];
    let books = books_of(&store.manager);
    for (name, one) in &list {
        let (mut areas, mut bitmap) = (Areas::of(&store), one.lent_bytes());
        let (number, bytes, large) = counted(|| measured(one, &books, areas.lend(&mut bitmap)));
        assert_eq!(number, 0, "{name}");
        println!("{name:<15} {bytes:>7} bytes, {large} copies of {LARGE} or more");
    }
}
