//! How much stack a run takes.
//!
//! The run has a thread of its own, on memory that was painted before: the lowest byte that isn't painted any more says how deep the
//! stack went. A thread that runs nothing says what the thread itself takes, and the difference is the run's. A part of a frame that is
//! never written can't be seen, but any call below it can.

use std::alloc::{alloc, dealloc, handle_alloc_error, Layout};
use std::ffi::{c_int, c_void};

use files::{shapes, Generator, ModuleFile, Sheet, Size};

use crate::analyzer::Lent;
use crate::corpus::{self, Wanted};
use crate::form::form;

extern "C" {
    fn pthread_attr_init(attributes: *mut Attributes) -> c_int;
    fn pthread_attr_setstack(attributes: *mut Attributes, low: *mut c_void, size: usize) -> c_int;
    fn pthread_attr_destroy(attributes: *mut Attributes) -> c_int;
    fn pthread_create(
        thread: *mut usize,
        attributes: *const Attributes,
        begin: extern "C" fn(*mut c_void) -> *mut c_void,
        given: *mut c_void,
    ) -> c_int;
    fn pthread_join(thread: usize, result: *mut *mut c_void) -> c_int;
}

/// Room for a `pthread_attr_t`, which has 56 or 64 bytes on Linux.
#[repr(C, align(16))]
struct Attributes([u8; 256]);

/// Far more than a run needs.
const SIZE: usize = 1 << 20;
const PAINT: u8 = 0xC5;

/// Prints what form checks and whole runs take, on the files that go deepest and on many others.
pub fn print() -> Result<(), String> {
    let thread = measure(&mut || ())?;
    println!("bytes of stack, above what the thread itself takes");
    println!(
        "{:42}{:>8}{:>10}{:>10}{:>10}",
        "what it is", "files", "accepted", "form", "analyse"
    );
    for (name, files) in inputs() {
        let mut most = (0, 0);
        for file in &files {
            let (form, analyse) = taken(file)?;
            most = (most.0.max(form - thread), most.1.max(analyse - thread));
        }
        let accepted = files.iter().filter(|file| is_accepted(file)).count();
        println!(
            "{name:42}{:>8}{accepted:>10}{:>10}{:>10}",
            files.len(),
            most.0,
            most.1
        );
    }
    Ok(())
}

fn is_accepted(file: &[u8]) -> bool {
    matches!(reference::analyse(file), reference::Answer::Report(_))
}

/// The depths that the form checks and a whole run reach on a file.
fn taken(file: &[u8]) -> Result<(usize, usize), String> {
    let mut lent = Lent::exact();
    let form = measure(&mut || {
        std::hint::black_box(form(file));
    })?;
    let analyse = measure(&mut || {
        std::hint::black_box(lent.run(file));
    })?;
    Ok((form, analyse))
}

/// How many bytes, from the top, a thread has written when it has run this.
fn measure(run: &mut dyn FnMut()) -> Result<usize, String> {
    let layout = Layout::from_size_align(SIZE, 4096).map_err(|error| error.to_string())?;
    // SAFETY: the layout has a size; the memory is used only until it is given back, when its thread has ended.
    unsafe {
        let low = alloc(layout);
        if low.is_null() {
            handle_alloc_error(layout);
        }
        low.write_bytes(PAINT, SIZE);
        let ended = run_on(low, run);
        let stack = std::slice::from_raw_parts(low, SIZE);
        let painted = stack.iter().take_while(|&&byte| byte == PAINT).count();
        dealloc(low, layout);
        ended.map(|()| SIZE - painted)
    }
}

/// Runs this on a thread whose stack is the `SIZE` bytes from `low` on, and waits for its end.
///
/// # Safety
/// The bytes belong to the caller, begin at a page, and nothing else uses them meanwhile.
unsafe fn run_on(low: *mut u8, mut run: &mut dyn FnMut()) -> Result<(), String> {
    extern "C" fn begin(given: *mut c_void) -> *mut c_void {
        // SAFETY: `given` is the `run` of the thread that waits for this one.
        let run = unsafe { &mut *given.cast::<&mut dyn FnMut()>() };
        run();
        std::ptr::null_mut()
    }
    let mut attributes = Attributes([0; 256]);
    let mut thread = 0;
    let given = (&raw mut run).cast();
    succeeded("pthread_attr_init", pthread_attr_init(&raw mut attributes))?;
    succeeded(
        "pthread_attr_setstack",
        pthread_attr_setstack(&raw mut attributes, low.cast(), SIZE),
    )?;
    succeeded(
        "pthread_create",
        pthread_create(&raw mut thread, &raw const attributes, begin, given),
    )?;
    succeeded("pthread_join", pthread_join(thread, std::ptr::null_mut()))?;
    succeeded(
        "pthread_attr_destroy",
        pthread_attr_destroy(&raw mut attributes),
    )
}

fn succeeded(what: &str, code: c_int) -> Result<(), String> {
    match code {
        0 => Ok(()),
        _ => Err(format!("{what} answers {code}")),
    }
}

/// The statements that hold others (01, 5.2).
const BLOCK: u8 = 7;
const IF: u8 = 8;
const SWITCH: u8 = 9;
const LOOP: u8 = 10;
const ARM: u8 = 11;
const CALL: u8 = 6;

/// A statement may stand inside so many others (01, 1.4).
const DEEPEST: usize = 32;

/// Files that nest as deep as may be, the longest chain of calls, and many generated ones.
fn inputs() -> Vec<(&'static str, Vec<Vec<u8>>)> {
    let one = |file: ModuleFile| vec![file.encode()];
    let some = Wanted {
        small: 20,
        middling: 20,
        large: 4,
        refused: 0,
    };
    let converted = corpus::generated(some)
        .into_iter()
        .flat_map(|group| group.samples)
        .map(|sample| sample.file);
    vec![
        ("no function", one(ModuleFile::default())),
        ("one function, nothing nested", one(nested(&[]))),
        ("32 deep: Blocks", one(nested(&[BLOCK; DEEPEST]))),
        (
            "32 deep: Ifs and their arms",
            one(nested(&[IF, ARM].repeat(16))),
        ),
        (
            "32 deep: Switches and their arms",
            one(nested(&[SWITCH, ARM].repeat(16))),
        ),
        (
            "32 deep: Loops and their arms",
            one(nested(&[LOOP, ARM].repeat(16))),
        ),
        ("33 deep, refused", one(nested(&[BLOCK; DEEPEST + 1]))),
        ("a chain of 64 functions, called 32 deep", one(chain())),
        (
            "256 pairs, taken by a Call",
            one(shapes::called(16, 16, false)),
        ),
        (
            "256 mixed pairs, taken by a Call",
            one(shapes::called(16, 16, true)),
        ),
        ("converted modules of all sizes", converted.collect()),
        (
            "generated files, middling",
            Generator::sized(5, Size::Middling).take(400).collect(),
        ),
        (
            "generated files, large",
            Generator::sized(6, Size::Large).take(60).collect(),
        ),
    ]
}

/// One function with a literal, and a Store inside of statements of these kinds.
fn nested(kinds: &[u8]) -> ModuleFile {
    shapes::one(1, |sheet| {
        sheet.expression(0, 0, 0, &[]);
        nest(sheet, kinds, &|sheet| {
            sheet.statement(5, 0, &[0, 0]);
        });
    })
}

/// Sixty-four functions, each calling the one before it as deep as a Call may stand; the first samples.
fn chain() -> ModuleFile {
    let mut first = Sheet::default();
    first.expression(2, 0, 0, &[]);
    first.expression(13, 1, 0, &shapes::zero_level(0, 0, 0));
    let mut sheets = vec![first];
    for callee in 0..63 {
        let mut sheet = Sheet::default();
        sheet.expression(0, 0, 0, &[]);
        nest(&mut sheet, &[LOOP, ARM].repeat(16), &|sheet| {
            sheet.statement(CALL, callee, &[]);
        });
        sheets.push(sheet);
    }
    shapes::module(1, sheets)
}

/// Statements of these kinds, each inside the one before it, and the last with `inside` in it. An If and a Loop get their
/// second arm, which is empty.
fn nest(sheet: &mut Sheet, kinds: &[u8], inside: &dyn Fn(&mut Sheet)) {
    let Some((&kind, deeper)) = kinds.split_first() else {
        return inside(sheet);
    };
    let operands: &[u16] = if matches!(kind, IF | SWITCH | LOOP) {
        &[0]
    } else {
        &[]
    };
    let opened = sheet.open(kind, 0, operands);
    nest(sheet, deeper, inside);
    if matches!(kind, IF | LOOP) {
        let second = sheet.open(ARM, 0, &[]);
        sheet.close(second);
    }
    sheet.close(opened);
}
