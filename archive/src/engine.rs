//! The proved engine's exported functions, with memories of its sizes.

pub const TABLE_BYTES: usize = 98304;
pub const STATE_BYTES: usize = 52236;
/// A state of the old size: entries of 50 bytes.
pub const OLD_STATE_BYTES: usize = 26236;
pub const OUTPUT_BYTES: usize = 1054;
pub const FILE_BYTES: usize = 32768;
pub const TRACE_BYTES: usize = 65536;
/// A count, then 256 times number and place, four bytes each.
pub const FAULTS_BYTES: usize = 2052;

#[repr(C)]
#[derive(Clone, Copy, Debug, PartialEq, Eq)]
pub struct Answer {
    pub number: u32,
    pub place: u32,
    pub passes: u32,
    pub kind: u32,
    pub length: u32,
}

/// What a macro file will take: 02, N8.
#[repr(C)]
#[derive(Clone, Copy, Debug, Default, PartialEq, Eq)]
pub struct Plan {
    pub number: u32,
    pub place: u32,
    pub macros: u32,
    pub elements: u32,
    pub tags: u32,
    pub bytes: u32,
    pub write_number: u32,
    pub write_place: u32,
}

extern "C" {
    fn m7_recover(
        file: *const u8,
        file_size: usize,
        table: *mut u8,
        table_size: usize,
        faults: *mut u8,
        faults_size: usize,
    ) -> Answer;
    fn m7_measure(file: *const u8, file_size: usize) -> Plan;
    fn m7_read(file: *const u8, file_size: usize, table: *mut u8, table_size: usize) -> Answer;
    fn m7_write(table: *const u8, table_size: usize, file: *mut u8, file_size: usize) -> Answer;
    fn m7_fresh(state: *mut u8, state_size: usize) -> Answer;
    fn m7_widen(old: *const u8, old_size: usize, state: *mut u8, state_size: usize) -> Answer;
    fn m7_narrow(state: *const u8, state_size: usize, old: *mut u8, old_size: usize) -> Answer;
    fn m7_words(
        line: *const u8,
        line_size: usize,
        pattern: *const u8,
        pattern_size: usize,
    ) -> Answer;
    fn m7_feed(
        table: *mut u8,
        table_size: usize,
        state: *mut u8,
        state_size: usize,
        line: *const u8,
        line_size: usize,
        budget: u32,
        output: *mut u8,
        output_size: usize,
        trace: *mut u8,
        trace_size: usize,
    ) -> Answer;
}

pub fn read(file: &[u8], table: &mut [u8]) -> Answer {
    unsafe { m7_read(file.as_ptr(), file.len(), table.as_mut_ptr(), table.len()) }
}

pub fn write(table: &[u8], file: &mut [u8]) -> Answer {
    unsafe { m7_write(table.as_ptr(), table.len(), file.as_mut_ptr(), file.len()) }
}

pub fn recover(file: &[u8], table: &mut [u8], faults: &mut [u8]) -> Answer {
    unsafe {
        m7_recover(
            file.as_ptr(),
            file.len(),
            table.as_mut_ptr(),
            table.len(),
            faults.as_mut_ptr(),
            faults.len(),
        )
    }
}

pub fn measure(file: &[u8]) -> Plan {
    unsafe { m7_measure(file.as_ptr(), file.len()) }
}

pub fn fresh(state: &mut [u8]) -> Answer {
    unsafe { m7_fresh(state.as_mut_ptr(), state.len()) }
}

/// A state of one of the old size.
pub fn widen(old: &[u8], state: &mut [u8]) -> Answer {
    unsafe { m7_widen(old.as_ptr(), old.len(), state.as_mut_ptr(), state.len()) }
}

/// A state of the old size, if no entry is too long.
pub fn narrow(state: &[u8], old: &mut [u8]) -> Answer {
    unsafe { m7_narrow(state.as_ptr(), state.len(), old.as_mut_ptr(), old.len()) }
}

/// Length: the words covered; place: of the first.
pub fn words(line: &[u8], pattern: &[u8]) -> Answer {
    unsafe { m7_words(line.as_ptr(), line.len(), pattern.as_ptr(), pattern.len()) }
}

pub fn feed(
    table: &mut [u8],
    state: &mut [u8],
    line: &[u8],
    budget: u32,
    output: &mut [u8],
    trace: &mut [u8],
) -> Answer {
    unsafe {
        m7_feed(
            table.as_mut_ptr(),
            table.len(),
            state.as_mut_ptr(),
            state.len(),
            line.as_ptr(),
            line.len(),
            budget,
            output.as_mut_ptr(),
            output.len(),
            trace.as_mut_ptr(),
            trace.len(),
        )
    }
}
