//! The port, by the calls of its static library. `c/gachullpi.h` says what each does.

/// What a call answers; `refusal` is 0 where it is accepted.
#[repr(C)]
#[derive(Clone, Copy, Debug, Default, PartialEq, Eq)]
pub struct Answer {
    pub refusal: u64,
    pub place: u64,
    pub depth: u64,
    pub value: u64,
    pub count: u64,
}

impl Answer {
    pub fn accepted(&self) -> bool {
        self.refusal == 0
    }

    pub fn said(&self) -> String {
        if self.accepted() {
            format!("accepted, {} {}", self.value, self.count)
        } else {
            format!("refused {} {} {}", self.refusal, self.place, self.depth)
        }
    }
}

extern "C" {
    fn gachullpi_is_text(bytes: *const u8, length: usize) -> bool;
    fn gachullpi_is_valid(kind: *const u8, kind_length: usize, order: u8, archive: *const u8, length: usize, place: usize) -> Answer;
    fn gachullpi_is_valid_deep(kind: *const u8, kind_length: usize, order: u8, archive: *const u8, length: usize, place: usize) -> Answer;
    fn gachullpi_get(kind: *const u8, kind_length: usize, order: u8, archive: *const u8, length: usize, place: usize) -> Answer;
    fn gachullpi_copy_out(
        kind: *const u8,
        kind_length: usize,
        order: u8,
        archive: *const u8,
        length: usize,
        place: usize,
        output: *mut u8,
        output_length: usize,
    ) -> Answer;
    fn gachullpi_life(
        calls: *const u8,
        calls_length: usize,
        buffer: *mut u8,
        buffer_length: usize,
        answers: *mut Answer,
        answers_count: usize,
    ) -> Answer;
}

// SAFETY, of each call below: the pointers are those of slices, with their lengths, and nothing that is written overlaps.

pub fn is_text(bytes: &[u8]) -> bool {
    unsafe { gachullpi_is_text(bytes.as_ptr(), bytes.len()) }
}

pub fn is_valid(kind: &str, order: u8, archive: &[u8], place: usize) -> Answer {
    unsafe { gachullpi_is_valid(kind.as_ptr(), kind.len(), order, archive.as_ptr(), archive.len(), place) }
}

pub fn is_valid_deep(kind: &str, order: u8, archive: &[u8], place: usize) -> Answer {
    unsafe { gachullpi_is_valid_deep(kind.as_ptr(), kind.len(), order, archive.as_ptr(), archive.len(), place) }
}

pub fn get(kind: &str, order: u8, archive: &[u8], place: usize) -> Answer {
    unsafe { gachullpi_get(kind.as_ptr(), kind.len(), order, archive.as_ptr(), archive.len(), place) }
}

pub fn copy_out(kind: &str, order: u8, archive: &[u8], place: usize, output: &mut [u8]) -> Answer {
    let (start, room) = (output.as_mut_ptr(), output.len());
    unsafe { gachullpi_copy_out(kind.as_ptr(), kind.len(), order, archive.as_ptr(), archive.len(), place, start, room) }
}

/// Runs the calls over the buffer; the answers are made as many as they.
pub fn life(calls: &Calls, buffer: &mut [u8], answers: &mut Vec<Answer>) -> Answer {
    answers.clear();
    answers.resize(calls.count, Answer::default());
    life_into(calls, buffer, answers)
}

pub fn life_into(calls: &Calls, buffer: &mut [u8], answers: &mut [Answer]) -> Answer {
    let (start, room) = (buffer.as_mut_ptr(), buffer.len());
    unsafe { gachullpi_life(calls.bytes.as_ptr(), calls.bytes.len(), start, room, answers.as_mut_ptr(), answers.len()) }
}

/// The calls of a life, as the library reads them.
#[derive(Default)]
pub struct Calls {
    bytes: Vec<u8>,
    count: usize,
}

impl Calls {
    pub fn clear(&mut self) {
        self.bytes.clear();
        self.count = 0;
    }

    pub fn count(&self) -> usize {
        self.count
    }

    fn add(&mut self, call: u8, kind: (&str, u8), number: usize, alignment: usize, bytes: &[u8]) {
        self.bytes.extend([call, kind.1, kind.0.len() as u8]);
        self.bytes.extend(kind.0.as_bytes());
        for number in [number, alignment, bytes.len()] {
            self.bytes.extend((number as u64).to_le_bytes());
        }
        self.bytes.extend(bytes);
        self.count += 1;
    }

    pub fn align(&mut self, alignment: usize) {
        self.add(1, NO_KIND, 0, alignment, &[]);
    }

    pub fn reserve(&mut self, kind: &str, order: u8) {
        self.add(2, (kind, order), 0, 0, &[]);
    }

    pub fn reserve_bytes(&mut self, count: usize, alignment: usize) {
        self.add(3, NO_KIND, count, alignment, &[]);
    }

    pub fn write(&mut self, place: usize, bytes: &[u8]) {
        self.add(4, NO_KIND, place, 0, bytes);
    }

    pub fn push(&mut self, kind: &str, order: u8, bytes: &[u8]) {
        self.add(5, (kind, order), 0, 0, bytes);
    }

    pub fn push_bytes(&mut self, bytes: &[u8], alignment: usize) {
        self.add(6, NO_KIND, 0, alignment, bytes);
    }

    pub fn build(&mut self, kind: &str, order: u8, sheet: &[u8]) {
        self.add(7, (kind, order), 0, 0, sheet);
    }

    pub fn finish(&mut self) {
        self.add(8, NO_KIND, 0, 0, &[]);
    }
}

/// What stands where a call takes no kind.
const NO_KIND: (&str, u8) = ("", 0);
