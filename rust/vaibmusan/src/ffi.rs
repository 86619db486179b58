//! The proved functions, as include/vaibmusan.h declares them; the only unsafe code of this crate.
//! What they ask of a caller (pointers that are not null and lead to as many elements as said, no overlap) is what Rust's slices are.

/// A number and five counts.
#[repr(C)]
#[derive(Clone, Copy, Default)]
pub struct Answer {
    pub number: u64,
    pub bindings: usize,
    pub module: usize,
    pub slots: usize,
    pub copies: usize,
    pub errors: usize,
}

#[repr(C)]
#[derive(Default)]
struct Stretch {
    offset: usize,
    length: usize,
}

#[repr(C)]
#[derive(Default)]
struct Home {
    scope: usize,
    slot: usize,
}

/// The answer buffers, in their full lengths.
#[derive(Clone)]
pub struct Buffers {
    pub nodes: [u32; 2048],
    pub bindings: [u64; 2304],
    pub module: [u32; 2304],
    pub scopes: [u32; 256],
    pub slots: [u32; 4096],
    pub copies: [u32; 4096],
    pub errors: [u32; 2048],
}

impl Buffers {
    pub fn new() -> Box<Self> {
        Box::new(Buffers { nodes: [0; 2048], bindings: [0; 2304], module: [0; 2304], scopes: [0; 256], slots: [0; 4096], copies: [0; 4096], errors: [0; 2048] })
    }
}

/// The readers' lists, in their full lengths.
#[derive(Clone)]
pub struct Lists {
    pub starts: [u32; 2304],
    pub counts: [u32; 2304],
    pub list: [u32; 2048],
    pub global_starts: [u32; 256],
    pub global_counts: [u32; 256],
    pub global_list: [u32; 2048],
}

impl Lists {
    pub fn new() -> Box<Self> {
        Box::new(Lists { starts: [0; 2304], counts: [0; 2304], list: [0; 2048], global_starts: [0; 256], global_counts: [0; 256], global_list: [0; 2048] })
    }
}

extern "C" {
    fn vaib_judge(file: *const u8, length: usize) -> u64;
    fn vaib_spelling(file: *const u8, length: usize, name: usize, stretch: *mut Stretch);
    fn vaib_resolve(
        file: *const u8,
        length: usize,
        nodes: *mut u32,
        nodes_length: usize,
        bindings: *mut u64,
        bindings_length: usize,
        module: *mut u32,
        module_length: usize,
        scopes: *mut u32,
        scopes_length: usize,
        slots: *mut u32,
        slots_length: usize,
        copies: *mut u32,
        copies_length: usize,
        errors: *mut u32,
        errors_length: usize,
        answer: *mut Answer,
    );
    fn vaib_readers(
        file: *const u8,
        length: usize,
        nodes: *mut u32,
        nodes_length: usize,
        bindings: *mut u64,
        bindings_length: usize,
        module: *mut u32,
        module_length: usize,
        scopes: *mut u32,
        scopes_length: usize,
        slots: *mut u32,
        slots_length: usize,
        copies: *mut u32,
        copies_length: usize,
        errors: *mut u32,
        errors_length: usize,
        starts: *mut u32,
        starts_length: usize,
        counts: *mut u32,
        counts_length: usize,
        list: *mut u32,
        list_length: usize,
        global_starts: *mut u32,
        global_starts_length: usize,
        global_counts: *mut u32,
        global_counts_length: usize,
        global_list: *mut u32,
        global_list_length: usize,
        answer: *mut Answer,
    );
    fn vaib_scopes_around(file: *const u8, length: usize, node: usize, around: *mut u32, around_length: usize) -> usize;
    fn vaib_version() -> u64;
    fn vaib_follow(copies: *const u32, copies_length: usize, around: *const u32, around_length: usize, slot: usize, home: *mut Home);
    fn vaib_listing(file: *const u8, length: usize, from: usize, text: *mut u8, text_length: usize) -> usize;
}

pub fn judge(file: &[u8]) -> u64 {
    // SAFETY: a slice's pointer and length.
    unsafe { vaib_judge(file.as_ptr(), file.len()) }
}

pub fn spelling(file: &[u8], name: usize) -> &[u8] {
    let mut s = Stretch::default();
    // SAFETY: a slice's pointer and length, and a struct of this function's.
    unsafe { vaib_spelling(file.as_ptr(), file.len(), name, &mut s) };
    &file[s.offset..s.offset + s.length]
}

pub fn resolve(file: &[u8], b: &mut Buffers) -> Answer {
    let mut answer = Answer::default();
    // SAFETY: pointers and lengths of a slice and of seven arrays that stand beside each other, and a struct of this function's.
    unsafe {
        vaib_resolve(
            file.as_ptr(),
            file.len(),
            b.nodes.as_mut_ptr(),
            b.nodes.len(),
            b.bindings.as_mut_ptr(),
            b.bindings.len(),
            b.module.as_mut_ptr(),
            b.module.len(),
            b.scopes.as_mut_ptr(),
            b.scopes.len(),
            b.slots.as_mut_ptr(),
            b.slots.len(),
            b.copies.as_mut_ptr(),
            b.copies.len(),
            b.errors.as_mut_ptr(),
            b.errors.len(),
            &mut answer,
        )
    }
    answer
}

pub fn readers(file: &[u8], b: &mut Buffers, l: &mut Lists) -> Answer {
    let mut answer = Answer::default();
    // SAFETY: pointers and lengths of a slice and of thirteen arrays that stand beside each other, and a struct of this function's.
    unsafe {
        vaib_readers(
            file.as_ptr(),
            file.len(),
            b.nodes.as_mut_ptr(),
            b.nodes.len(),
            b.bindings.as_mut_ptr(),
            b.bindings.len(),
            b.module.as_mut_ptr(),
            b.module.len(),
            b.scopes.as_mut_ptr(),
            b.scopes.len(),
            b.slots.as_mut_ptr(),
            b.slots.len(),
            b.copies.as_mut_ptr(),
            b.copies.len(),
            b.errors.as_mut_ptr(),
            b.errors.len(),
            l.starts.as_mut_ptr(),
            l.starts.len(),
            l.counts.as_mut_ptr(),
            l.counts.len(),
            l.list.as_mut_ptr(),
            l.list.len(),
            l.global_starts.as_mut_ptr(),
            l.global_starts.len(),
            l.global_counts.as_mut_ptr(),
            l.global_counts.len(),
            l.global_list.as_mut_ptr(),
            l.global_list.len(),
            &mut answer,
        )
    }
    answer
}

/// The scopes around a node, outermost first; none where there is no such node. A tree of an accepted file is at most 64 deep.
pub fn scopes_around(file: &[u8], node: usize) -> Vec<u32> {
    let mut around = [0; 64];
    // SAFETY: two slices' pointers and lengths.
    let count = unsafe { vaib_scopes_around(file.as_ptr(), file.len(), node, around.as_mut_ptr(), around.len()) };
    around[..count.min(around.len())].to_vec()
}

pub fn version() -> u64 {
    // SAFETY: it takes nothing.
    unsafe { vaib_version() }
}

/// The scope and the slot where a chain of copies ends.
pub fn follow(copies: &[u32], around: &[u32], slot: usize) -> (usize, usize) {
    let mut home = Home::default();
    // SAFETY: two slices' pointers and lengths, and a struct of this function's.
    unsafe { vaib_follow(copies.as_ptr(), copies.len(), around.as_ptr(), around.len(), slot, &mut home) };
    (home.scope, home.slot)
}

pub fn listing(file: &[u8], from: usize, text: &mut [u8]) -> usize {
    // SAFETY: two slices' pointers and lengths.
    unsafe { vaib_listing(file.as_ptr(), file.len(), from, text.as_mut_ptr(), text.len()) }
}
