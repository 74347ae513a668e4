//! What a call of each side takes of the stack and of the heap. A program of its own: its allocator counts, and would cost the Rust time.

use std::alloc::{GlobalAlloc, Layout, System};
use std::arch::asm;
use std::ffi::c_void;
use std::hint::black_box;
use std::sync::atomic::{AtomicUsize, Ordering::Relaxed};

use bench::rows::{self, Call, Listed, Row};
use bench::table::{grouped, Table};
use bench::{jpeg_rows, sheet_rows, sides};

/// The system's allocator, and what was asked of it.
struct Counting;

static HELD: AtomicUsize = AtomicUsize::new(0);
static MOST: AtomicUsize = AtomicUsize::new(0);
static TIMES: AtomicUsize = AtomicUsize::new(0);

fn taken(bytes: usize) {
    TIMES.fetch_add(1, Relaxed);
    MOST.fetch_max(HELD.fetch_add(bytes, Relaxed) + bytes, Relaxed);
}

// SAFETY: the system's allocator does all of it.
unsafe impl GlobalAlloc for Counting {
    unsafe fn alloc(&self, layout: Layout) -> *mut u8 {
        taken(layout.size());
        System.alloc(layout)
    }

    unsafe fn dealloc(&self, at: *mut u8, layout: Layout) {
        HELD.fetch_sub(layout.size(), Relaxed);
        System.dealloc(at, layout)
    }

    unsafe fn realloc(&self, at: *mut u8, layout: Layout, size: usize) -> *mut u8 {
        // As if it grew where it is: a moment in which both are held is not counted.
        HELD.fetch_sub(layout.size(), Relaxed);
        taken(size);
        System.realloc(at, layout, size)
    }
}

#[global_allocator]
static COUNTING: Counting = Counting;

struct Memory {
    stack: usize,
    heap: usize,
    allocations: usize,
}

/// A stack in units of 16 bytes, as frames are: more than any call takes, painted with what no frame is likely to hold.
const UNITS: usize = 1 << 16;
const PAINT: u128 = u128::from_ne_bytes([0xa5; 16]);

extern "C" fn start(call: *mut c_void) {
    // SAFETY: `on_stack` is given a pointer to just that.
    unsafe { (*call.cast::<&mut dyn FnMut()>())() }
}

/// Makes the call with its frames right below `top`.
///
/// # Safety
/// Below `top` there is memory enough that nothing else uses.
unsafe fn on_stack(top: *mut u128, mut call: &mut dyn FnMut()) {
    let call = std::ptr::from_mut(&mut call).cast::<c_void>();
    let start = start as extern "C" fn(*mut c_void);
    #[cfg(target_arch = "aarch64")]
    asm!("mov x20, sp", "mov sp, {top}", "blr {start}", "mov sp, x20",
        top = in(reg) top, start = in(reg) start, in("x0") call, out("x20") _, clobber_abi("C"));
    #[cfg(target_arch = "x86_64")]
    asm!("mov r12, rsp", "mov rsp, {top}", "call {start}", "mov rsp, r12",
        top = in(reg) top, start = in(reg) start, in("rdi") call, out("r12") _, clobber_abi("C"));
}

/// The lowest unit that lost its paint is how deep the call went.
fn memory(call: &mut dyn FnMut()) -> Memory {
    let mut stack = vec![PAINT; UNITS];
    let before = HELD.load(Relaxed);
    MOST.store(before, Relaxed);
    TIMES.store(0, Relaxed);
    // SAFETY: all of `stack` is below its end.
    unsafe { on_stack(stack.as_mut_ptr_range().end, call) };
    let untouched = stack.iter().take_while(|&&unit| unit == PAINT).count();
    Memory { stack: 16 * (UNITS - untouched), heap: MOST.load(Relaxed) - before, allocations: TIMES.load(Relaxed) }
}

/// The heap is the Rust's alone: what the archive would allocate is not seen here. bench/run lists the functions that it calls.
fn line(row: &Row) -> Vec<String> {
    let image = &row.input[..];
    let mut out = vec![0; sides::ROOM];
    let rust = memory(&mut || drop(black_box(sides::rust_exif(image))));
    let ours = memory(&mut || _ = black_box(sides::our_exif(image, &mut out)));
    let rust_heif = memory(&mut || _ = black_box(sides::rust_is_heif(image)));
    let our_heif = memory(&mut || _ = black_box(sides::our_is_heif(image)));
    let figures = [rust.stack, ours.stack, rust.heap, rust.allocations, rust_heif.stack, our_heif.stack];
    [row.name.to_string()].into_iter().chain(figures.map(grouped)).collect()
}

/// The same of one call: `coinbarrow_photo`, or `coinbarrow_sheet`.
fn call_line(row: &Row) -> Vec<String> {
    let input = &row.input[..];
    let mut out = vec![0; sides::ROOM];
    let rust = match row.call {
        Call::Sheet => memory(&mut || drop(black_box(sides::plain_sheet(input)))),
        Call::Photo => memory(&mut || drop(black_box(sides::rust_photo(input)))),
        _ => memory(&mut || drop(black_box(sides::plain_jpeg(input)))),
    };
    let ours = match row.call {
        Call::Sheet => memory(&mut || _ = black_box(sides::our_sheet(input, &mut out))),
        _ => memory(&mut || _ = black_box(sides::our_photo(input, &mut out))),
    };
    [row.name.to_string()].into_iter().chain([rust.stack, ours.stack, rust.heap, rust.allocations].map(grouped)).collect()
}

fn listing_line(row: &Listed) -> Vec<String> {
    let mut out = vec![0; sides::TEXT_ROOM];
    let ours = memory(&mut || _ = black_box(sides::our_list(&row.image, &mut out)));
    [row.name.to_string()].into_iter().chain([row.image.len(), ours.stack].map(grouped)).collect()
}

fn main() {
    let head =
        ["image", "stack, Rust", "stack, ours", "heap, Rust", "allocations, Rust", "stack of `is_heif`, Rust", "stack of `is_heif`, ours"];
    let mut table = Table::new("Extraction, and the stack of `is_heif`", head.map(str::to_string).to_vec());
    rows::extraction().iter().for_each(|row| table.add(line(row)));
    let call_table = |title, input: &str, other, rows: Vec<Row>| {
        let head = [
            input.to_string(),
            format!("stack, {other}"),
            "stack, ours".to_string(),
            format!("heap, {other}"),
            format!("allocations, {other}"),
        ];
        let mut table = Table::new(title, head.to_vec());
        rows.iter().for_each(|row| table.add(call_line(row)));
        table
    };
    let jpeg = call_table("JPEG by `coinbarrow_photo`", "image", "plain Rust", jpeg_rows::jpeg());
    let heif = call_table("HEIF by `coinbarrow_photo`", "image", "Rust", jpeg_rows::heif());
    let sheet = call_table("The sheet by `coinbarrow_sheet`", "lines", "plain Rust", sheet_rows::sheet());
    let mut listing = Table::new("The listing", ["image", "bytes", "stack"].map(str::to_string).to_vec());
    rows::listing().iter().for_each(|row| listing.add(listing_line(row)));
    let own = memory(&mut || sides::empty(black_box(&[]), black_box(&mut []))).stack;
    println!("MEMORY a call, in bytes: how deep the stack was written, {own} for an empty call; what was held of the heap at most.\n");
    table.print();
    jpeg.print();
    heif.print();
    sheet.print();
    listing.print();
}
