//! Measures the stack that a call of the static library uses: the stack below the caller is filled with a pattern, the
//! call runs, and the deepest word that it changed is looked for. Every kind of call on stores that histories made, on
//! random ones, on full and on spoilt ones. A call begins where its function is entered: build.rs has the linker put a
//! step before each of them, which keeps the stack pointer. What the caller lays down for a call is counted beside it.

use compare::prepared::{any_calls, dense, kind, KINDS, NAMES};
use compare::{books_of, measured, Areas};
use model::call::Call;
use model::histories::{Calls, PROFILES};
use model::sound::well_formed;
use model::store::Store;
use model::stores::{random_store, spoilt_store};
use nizgulk::books::Books;
use nizgulk::calls::{Reply, Seen};
use std::arch::global_asm;
use std::hint::black_box;
use std::mem::MaybeUninit;
use std::process::ExitCode;
use std::sync::atomic::{AtomicUsize, Ordering::Relaxed};

const ROUNDS: u64 = 400;
const CALLS: u64 = 12;
/// Words that are painted: 2 MiB, of a thread's stack of 16.
const WORDS: usize = 1 << 18;
const STACK: usize = 16 << 20;
const PAINT: u64 = 0x5ac3_1e77_9b04_d2f1;

/// The stack pointer where a function of the library was entered: it points to the return address.
static ENTERED: AtomicUsize = AtomicUsize::new(0);

global_asm!(include_str!(concat!(env!("OUT_DIR"), "/entered.s")), entered = sym ENTERED);

/// Fills the stack below the caller, and answers where that begins.
#[inline(never)]
fn paint() -> *const u64 {
    let mut area = MaybeUninit::<[u64; WORDS]>::uninit();
    let first = area.as_mut_ptr().cast::<u64>();
    for i in 0..WORDS {
        // Safety: i is within the array.
        unsafe { first.add(i).write_volatile(PAINT) };
    }
    black_box(&mut area);
    first
}

/// How many bytes from the deepest changed word to the return address of the call, that included.
#[inline(never)]
fn used(first: *const u64) -> usize {
    // Safety: these words are of this thread's own stack, below the frames in use but mapped.
    let kept = (0..WORDS).take_while(|&i| unsafe { first.add(i).read_volatile() } == PAINT).count();
    (ENTERED.load(Relaxed) + 8).saturating_sub(first as usize + kept * 8)
}

#[inline(never)]
fn used_by(one: &Call, store: &Store) -> (usize, u64) {
    let mut bitmap = one.lent_bytes();
    let (books, mut areas) = (books_of(&store.manager), Areas::of(store));
    let first = paint();
    let number = measured(one, &books, areas.lend(&mut bitmap));
    (used(first), number)
}

/// What a caller lays down on its stack: the books, and the words that find no register; and where it keeps the reply.
fn laid_down(kind: usize) -> usize {
    let (words, reply) = match NAMES[kind] {
        "append" => (3, size_of::<Reply>()),
        "clear" => (1, size_of::<Reply>()),
        "scan_rw" | "scan_ro" => (3, size_of::<Seen>()),
        "save" => (2, size_of::<Seen>()),
        "recover" => (1, size_of::<Reply>()),
        _ => (0, size_of::<Reply>()),
    };
    size_of::<Books>() + 8 * words + reply
}

/// The greatest use of each kind, and how often it was accepted.
fn greatest() -> [(usize, u64); KINDS] {
    let mut all = [(0, 0); KINDS];
    let mut note = |one: &Call, (bytes, number): (usize, u64)| {
        let place = &mut all[kind(one)];
        place.0 = place.0.max(bytes);
        place.1 += u64::from(number == 0);
    };
    for round in 0..ROUNDS {
        let mut calls = Calls::new(round, PROFILES[(round / 4) as usize % PROFILES.len()]);
        let mut store = match round % 4 {
            0 => calls.first_store().0,
            1 => random_store(&mut calls.rng),
            2 => dense(&mut calls.rng, round % 8 == 2),
            _ => spoilt_store(&mut calls.rng).0,
        };
        for one in any_calls(&store, &mut calls.rng) {
            note(&one, used_by(&one, &store));
        }
        let other = random_store(&mut calls.rng);
        for _ in 0..CALLS {
            let next = calls.next_call(if well_formed(&store) { &store } else { &other });
            note(&next, used_by(&next, &store));
            let _ = next.run(&mut store, &mut next.lent_bytes());
        }
    }
    all
}

fn main() -> ExitCode {
    let thread = std::thread::Builder::new().stack_size(STACK).spawn(greatest);
    let Some(all) = thread.ok().and_then(|thread| thread.join().ok()) else {
        println!("the measuring thread did not end");
        return ExitCode::FAILURE;
    };
    println!("function measured laid-down accepted");
    for (kind, (bytes, accepted)) in all.iter().enumerate() {
        println!("nizgulk_{} {bytes} {} {accepted}", NAMES[kind], laid_down(kind));
        if *accepted == 0 || *bytes == 0 || *bytes >= WORDS * size_of::<u64>() {
            println!("nizgulk_{}: not measured", NAMES[kind]);
            return ExitCode::FAILURE;
        }
    }
    ExitCode::SUCCESS
}
