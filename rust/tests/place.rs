//! A store can be placed, made new and used by a thread whose stack is too small to hold it.

use nizgulk::limits::STORE_WORDS;
use nizgulk::{Epoch, Refusal, Store};
use std::sync::Mutex;
use std::thread;

/// Bytes of the stack: more than a call needs, less than a call and a store on the stack would.
const STACK: usize = 96 << 10;

static STORE: Mutex<Store> = Mutex::new(Store::blank());

/// Every call once.
fn a_day(store: &mut Store) -> Result<u64, Refusal> {
    store.create(Epoch::FIRST)?;
    let load = store.begin()?;
    store.append(load, 0, &[1, 2])?;
    store.commit(load)?;
    let page = store.begin_ro(None)?;
    let wrong = store.begin()?;
    store.clear(wrong, 0)?;
    store.roll_back(wrong)?;
    let sum = store.scan(page, 0)?.sum();
    store.end_ro(page)?;
    store.advance_lse(None)?;
    store.purge(0)?;
    let mut out = [0; 40];
    let length = store.save(store.lce(), &mut out)?;
    store.recover(&out[..length])?;
    Ok(sum)
}

fn on_a_small_stack(run: impl FnOnce() -> Result<u64, Refusal> + Send + 'static) {
    assert!(size_of::<Store>() + (40 << 10) > STACK);
    let thread = thread::Builder::new().stack_size(STACK).spawn(run).unwrap();
    assert_eq!(thread.join().unwrap(), Ok(3));
}

#[test]
fn in_a_static() {
    on_a_small_stack(|| a_day(&mut STORE.lock().unwrap()));
}

#[test]
fn on_the_heap() {
    on_a_small_stack(|| {
        let mut words = vec![0; STORE_WORDS].into_boxed_slice();
        a_day(Store::in_words(words.as_mut().try_into().unwrap()))
    });
}
