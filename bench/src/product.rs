//! The product's static library.

use crate::measured::Measured;

mod c {
    use crate::measured::Measured;

    extern "C" {
        pub fn treedb_run(code: *const u8, size: usize, nodes: u32, args: *const i64, arity: usize, times: u32) -> Measured;
        pub fn treedb_local(code: *const u8, size: usize, args: *const i64, arity: usize, times: u32) -> Measured;
        pub fn treedb_check(code: *const u8, size: usize, times: u32) -> Measured;
        pub fn treedb_decode(code: *const u8, size: usize, times: u32) -> Measured;
        pub fn treedb_assemble(text: *const u8, size: usize, times: u32) -> Measured;
        #[allow(clippy::too_many_arguments)]
        pub fn treedb_interleave(
            code: *const u8,
            size: usize,
            parents: *const u32,
            nodes: usize,
            args: *const i64,
            calls: usize,
            nanos: *mut u64,
            nanos_room: usize,
            steps: *mut u64,
            steps_room: usize,
        ) -> Measured;
        #[allow(clippy::too_many_arguments)]
        pub fn treedb_tell(
            code: *const u8,
            size: usize,
            parents: *const u32,
            nodes: usize,
            args: *const i64,
            calls: usize,
            text: *mut u8,
            room: usize,
        ) -> Measured;
        pub fn treedb_admit(code: *const u8, size: usize, parents: *const u32, nodes: usize, args: *const i64, calls: usize) -> Measured;
        pub fn treedb_keep(code: *const u8, size: usize, parents: *const u32, nodes: usize, args: *const i64, calls: usize) -> Measured;
        pub fn treedb_replay(code: *const u8, size: usize, parents: *const u32, nodes: usize, args: *const i64, calls: usize) -> Measured;
        pub fn treedb_seal(code: *const u8, size: usize, parents: *const u32, nodes: usize, args: *const i64, calls: usize) -> Measured;
        pub fn treedb_block(code: *const u8, size: usize, times: u32) -> Measured;
        pub fn treedb_read(text: *const u8, size: usize, times: u32) -> Measured;
        pub fn treedb_parse(text: *const u8, size: usize, times: u32) -> Measured;
        pub fn treedb_print(text: *const u8, size: usize, times: u32) -> Measured;
        pub fn treedb_write(text: *const u8, size: usize, times: u32) -> Measured;
        pub fn treedb_order(text: *const u8, size: usize, times: u32) -> Measured;
        pub fn treedb_audit(text: *const u8, size: usize, times: u32) -> Measured;
    }
}

/// Functions of bytes and how often the work is done.
macro_rules! of_bytes {
    ($($(#[$says:meta])* $name:ident is $function:ident;)*) => {
        $($(#[$says])* pub fn $name(bytes: &[u8], times: u32) -> Measured {
            unsafe { c::$function(bytes.as_ptr(), bytes.len(), times) }
        })*
    };
}

of_bytes! {
    check is treedb_check;
    decode is treedb_decode;
    assemble is treedb_assemble;
    block is treedb_block;
    read is treedb_read;
    /// The port of `serde_json` reads the text as a value, and lets that go.
    parse is treedb_parse;
    /// The port of `serde_json` writes the value of the text.
    print is treedb_print;
    write is treedb_write;
    order is treedb_order;
    audit is treedb_audit;
}

/// Functions of calls: their code, the tree's parents, and an argument for each.
macro_rules! of_calls {
    ($($name:ident is $function:ident;)*) => {
        $(pub fn $name(code: &[u8], parents: &[u32], args: &[i64]) -> Measured {
            unsafe {
                c::$function(code.as_ptr(), code.len(), parents.as_ptr(), parents.len(), args.as_ptr(), args.len())
            }
        })*
    };
}

of_calls! {
    admit is treedb_admit;
    keep is treedb_keep;
    replay is treedb_replay;
    seal is treedb_seal;
}

pub fn run(code: &[u8], nodes: u32, args: &[i64], times: u32) -> Measured {
    unsafe { c::treedb_run(code.as_ptr(), code.len(), nodes, args.as_ptr(), args.len(), times) }
}

pub fn local(code: &[u8], args: &[i64], times: u32) -> Measured {
    unsafe { c::treedb_local(code.as_ptr(), code.len(), args.as_ptr(), args.len(), times) }
}

pub fn interleave(code: &[u8], parents: &[u32], args: &[i64], nanos: &mut [u64], steps: &mut [u64]) -> Measured {
    unsafe {
        c::treedb_interleave(
            code.as_ptr(),
            code.len(),
            parents.as_ptr(),
            parents.len(),
            args.as_ptr(),
            args.len(),
            nanos.as_mut_ptr(),
            nanos.len(),
            steps.as_mut_ptr(),
            steps.len(),
        )
    }
}

pub fn tell(code: &[u8], parents: &[u32], args: &[i64], text: &mut [u8]) -> Measured {
    unsafe {
        c::treedb_tell(
            code.as_ptr(),
            code.len(),
            parents.as_ptr(),
            parents.len(),
            args.as_ptr(),
            args.len(),
            text.as_mut_ptr(),
            text.len(),
        )
    }
}
