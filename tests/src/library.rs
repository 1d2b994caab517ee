//! The proved library as a Rust program sees it: safe functions over the static library of crate `capi` (`include/hevolatsy.h`).
//! No exported function has a `requires`, so nothing has to be tested before a call.

extern "C" {
    fn hevolatsy_read(sheet: *const u8, sheet_len: usize, output: *mut u16, output_len: usize) -> i64;
    fn hevolatsy_write(pairs: *const u16, pairs_len: usize, output: *mut u8, output_len: usize) -> i64;
    fn hevolatsy_vehicle(fleet: *const u16, fleet_len: usize, vehicle: usize) -> i64;
    fn hevolatsy_form(tree: *const u16, tree_len: usize, output: *mut u16, output_len: usize) -> i64;
    fn hevolatsy_support(fleet: *const u16, fleet_len: usize, pattern: *const u16, pattern_len: usize) -> i64;
    fn hevolatsy_place(
        fleet: *const u16,
        fleet_len: usize,
        vehicle: usize,
        pattern: *const u16,
        pattern_len: usize,
        output: *mut u16,
        output_len: usize,
    ) -> i64;
    fn hevolatsy_start(
        fleet: *const u16,
        fleet_len: usize,
        request: *const usize,
        request_len: usize,
        output: *mut u16,
        output_len: usize,
    ) -> i64;
    fn hevolatsy_step(
        fleet: *const u16,
        fleet_len: usize,
        request: *const usize,
        request_len: usize,
        pattern: *const u16,
        pattern_len: usize,
        output: *mut u16,
        output_len: usize,
    ) -> i64;
    fn hevolatsy_batch(
        fleet: *const u16,
        fleet_len: usize,
        request: *const usize,
        request_len: usize,
        pattern: *const u16,
        pattern_len: usize,
        output: *mut u16,
        output_len: usize,
        found: *mut usize,
        found_len: usize,
    ) -> i64;
    fn hevolatsy_pages(
        fleet: *const u16,
        fleet_len: usize,
        request: *const usize,
        request_len: usize,
        output: *mut u8,
        output_len: usize,
    ) -> i64;
    fn hevolatsy_register(
        fleet: *const u16,
        fleet_len: usize,
        nodes: *mut u16,
        nodes_len: usize,
        holders: *mut u64,
        holders_len: usize,
    ) -> i64;
    fn hevolatsy_swap(
        buffer: *mut u16,
        buffer_len: usize,
        used: usize,
        vehicle: usize,
        tree: *const u16,
        tree_len: usize,
        nodes: *mut u16,
        nodes_len: usize,
        holders: *mut u64,
        holders_len: usize,
    ) -> i64;
    fn hevolatsy_start_with_register(
        fleet: *const u16,
        fleet_len: usize,
        nodes: *const u16,
        nodes_len: usize,
        holders: *const u64,
        holders_len: usize,
        request: *const usize,
        request_len: usize,
        output: *mut u16,
        output_len: usize,
    ) -> i64;
    fn hevolatsy_step_with_register(
        fleet: *const u16,
        fleet_len: usize,
        nodes: *const u16,
        nodes_len: usize,
        holders: *const u64,
        holders_len: usize,
        request: *const usize,
        request_len: usize,
        pattern: *const u16,
        pattern_len: usize,
        output: *mut u16,
        output_len: usize,
    ) -> i64;
    fn hevolatsy_batch_with_register(
        fleet: *const u16,
        fleet_len: usize,
        nodes: *const u16,
        nodes_len: usize,
        holders: *const u64,
        holders_len: usize,
        request: *const usize,
        request_len: usize,
        pattern: *const u16,
        pattern_len: usize,
        output: *mut u16,
        output_len: usize,
        found: *mut usize,
        found_len: usize,
    ) -> i64;
}

pub fn read(sheet: &[u8], output: &mut [u16]) -> i64 {
    unsafe { hevolatsy_read(sheet.as_ptr(), sheet.len(), output.as_mut_ptr(), output.len()) }
}

pub fn write(pairs: &[u16], output: &mut [u8]) -> i64 {
    unsafe { hevolatsy_write(pairs.as_ptr(), pairs.len(), output.as_mut_ptr(), output.len()) }
}

pub fn vehicle(fleet: &[u16], vehicle: usize) -> i64 {
    unsafe { hevolatsy_vehicle(fleet.as_ptr(), fleet.len(), vehicle) }
}

pub fn form(tree: &[u16], output: &mut [u16]) -> i64 {
    unsafe { hevolatsy_form(tree.as_ptr(), tree.len(), output.as_mut_ptr(), output.len()) }
}

pub fn support(fleet: &[u16], pattern: &[u16]) -> i64 {
    unsafe { hevolatsy_support(fleet.as_ptr(), fleet.len(), pattern.as_ptr(), pattern.len()) }
}

pub fn place(fleet: &[u16], vehicle: usize, pattern: &[u16], output: &mut [u16]) -> i64 {
    unsafe {
        hevolatsy_place(fleet.as_ptr(), fleet.len(), vehicle, pattern.as_ptr(), pattern.len(), output.as_mut_ptr(), output.len())
    }
}

/// The profiles of a list: all forms that reach the threshold; those of which no proper supertree has the same support; those of which none
/// reaches the threshold.
pub const FULL: usize = 0;
pub const CLOSED: usize = 1;
pub const MAXIMAL: usize = 2;

/// What is asked of a list.
#[derive(Clone, Copy)]
pub struct Request {
    pub threshold: usize,
    pub bound: usize,
    pub profile: usize,
}

impl Request {
    pub const FIELDS: usize = 3;

    /// The full list.
    pub const fn full(threshold: usize, bound: usize) -> Request {
        Request { threshold, bound, profile: FULL }
    }

    /// The request as it crosses: its fields in their order.
    pub fn numbers(self) -> [usize; Request::FIELDS] {
        let Request { threshold, bound, profile } = self;
        [threshold, bound, profile]
    }
}

pub fn start(fleet: &[u16], request: Request, output: &mut [u16]) -> i64 {
    start_by_numbers(fleet, &request.numbers(), output)
}

pub fn step(fleet: &[u16], request: Request, pattern: &[u16], output: &mut [u16]) -> i64 {
    step_by_numbers(fleet, &request.numbers(), pattern, output)
}

/// The forms behind the pattern, or from the start where it has no pairs: end to end in the output, an entry of `found` for each.
pub fn batch(fleet: &[u16], request: Request, pattern: &[u16], output: &mut [u16], found: &mut [usize]) -> i64 {
    batch_by_numbers(fleet, &request.numbers(), pattern, output, found)
}

/// The bytes of a page: 54 lines of 72 columns and a line end.
pub const PAGE: usize = 3942;

/// The list on pages, one after the other at the front of the output.
pub fn pages(fleet: &[u16], request: Request, output: &mut [u8]) -> i64 {
    pages_by_numbers(fleet, &request.numbers(), output)
}

/// A start whose request is any numbers: a missing one counts as 0, those past the last field are not looked at.
pub fn start_by_numbers(fleet: &[u16], request: &[usize], output: &mut [u16]) -> i64 {
    unsafe { hevolatsy_start(fleet.as_ptr(), fleet.len(), request.as_ptr(), request.len(), output.as_mut_ptr(), output.len()) }
}

/// A step whose request is any numbers.
pub fn step_by_numbers(fleet: &[u16], request: &[usize], pattern: &[u16], output: &mut [u16]) -> i64 {
    unsafe {
        hevolatsy_step(
            fleet.as_ptr(),
            fleet.len(),
            request.as_ptr(),
            request.len(),
            pattern.as_ptr(),
            pattern.len(),
            output.as_mut_ptr(),
            output.len(),
        )
    }
}

/// A batch whose request is any numbers.
pub fn batch_by_numbers(fleet: &[u16], request: &[usize], pattern: &[u16], output: &mut [u16], found: &mut [usize]) -> i64 {
    unsafe {
        hevolatsy_batch(
            fleet.as_ptr(),
            fleet.len(),
            request.as_ptr(),
            request.len(),
            pattern.as_ptr(),
            pattern.len(),
            output.as_mut_ptr(),
            output.len(),
            found.as_mut_ptr(),
            found.len(),
        )
    }
}

/// Pages whose request is any numbers.
pub fn pages_by_numbers(fleet: &[u16], request: &[usize], output: &mut [u8]) -> i64 {
    unsafe { hevolatsy_pages(fleet.as_ptr(), fleet.len(), request.as_ptr(), request.len(), output.as_mut_ptr(), output.len()) }
}

/// The entries of a label register.
pub const LABELS: usize = 999;

/// Makes the label register of the fleet: for each label, from 1 on, the number of its nodes and the set of vehicles that hold it.
pub fn register(fleet: &[u16], nodes: &mut [u16], holders: &mut [u64]) -> i64 {
    unsafe {
        hevolatsy_register(fleet.as_ptr(), fleet.len(), nodes.as_mut_ptr(), nodes.len(), holders.as_mut_ptr(), holders.len())
    }
}

/// Puts the tree in the place of the vehicle's, in the fleet that is the first `used` pairs of the buffer, and in its register.
pub fn swap(buffer: &mut [u16], used: usize, vehicle: usize, tree: &[u16], nodes: &mut [u16], holders: &mut [u64]) -> i64 {
    unsafe {
        hevolatsy_swap(
            buffer.as_mut_ptr(),
            buffer.len(),
            used,
            vehicle,
            tree.as_ptr(),
            tree.len(),
            nodes.as_mut_ptr(),
            nodes.len(),
            holders.as_mut_ptr(),
            holders.len(),
        )
    }
}

/// A fleet's label register, lent to a list.
#[derive(Clone, Copy)]
pub struct Register<'a> {
    pub nodes: &'a [u16],
    pub holders: &'a [u64],
}

pub fn start_with_register(fleet: &[u16], register: Register, request: Request, output: &mut [u16]) -> i64 {
    start_with_register_by_numbers(fleet, register, &request.numbers(), output)
}

pub fn step_with_register(fleet: &[u16], register: Register, request: Request, pattern: &[u16], output: &mut [u16]) -> i64 {
    step_with_register_by_numbers(fleet, register, &request.numbers(), pattern, output)
}

pub fn batch_with_register(
    fleet: &[u16],
    register: Register,
    request: Request,
    pattern: &[u16],
    output: &mut [u16],
    found: &mut [usize],
) -> i64 {
    batch_with_register_by_numbers(fleet, register, &request.numbers(), pattern, output, found)
}

/// A start with a register whose request is any numbers.
pub fn start_with_register_by_numbers(fleet: &[u16], register: Register, request: &[usize], output: &mut [u16]) -> i64 {
    let Register { nodes, holders } = register;
    unsafe {
        hevolatsy_start_with_register(
            fleet.as_ptr(),
            fleet.len(),
            nodes.as_ptr(),
            nodes.len(),
            holders.as_ptr(),
            holders.len(),
            request.as_ptr(),
            request.len(),
            output.as_mut_ptr(),
            output.len(),
        )
    }
}

/// A step with a register whose request is any numbers.
pub fn step_with_register_by_numbers(fleet: &[u16], register: Register, request: &[usize], pattern: &[u16], output: &mut [u16]) -> i64 {
    let Register { nodes, holders } = register;
    unsafe {
        hevolatsy_step_with_register(
            fleet.as_ptr(),
            fleet.len(),
            nodes.as_ptr(),
            nodes.len(),
            holders.as_ptr(),
            holders.len(),
            request.as_ptr(),
            request.len(),
            pattern.as_ptr(),
            pattern.len(),
            output.as_mut_ptr(),
            output.len(),
        )
    }
}

/// A batch with a register whose request is any numbers.
pub fn batch_with_register_by_numbers(
    fleet: &[u16],
    register: Register,
    request: &[usize],
    pattern: &[u16],
    output: &mut [u16],
    found: &mut [usize],
) -> i64 {
    let Register { nodes, holders } = register;
    unsafe {
        hevolatsy_batch_with_register(
            fleet.as_ptr(),
            fleet.len(),
            nodes.as_ptr(),
            nodes.len(),
            holders.as_ptr(),
            holders.len(),
            request.as_ptr(),
            request.len(),
            pattern.as_ptr(),
            pattern.len(),
            output.as_mut_ptr(),
            output.len(),
            found.as_mut_ptr(),
            found.len(),
        )
    }
}
