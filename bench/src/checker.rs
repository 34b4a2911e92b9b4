// The checker, by way of its C interface, as include/kelombary.h declares it.

const LISTING_MOST: usize = 20_480;
const LISTED: u32 = 0;

#[repr(C)]
struct Answer {
    number: u32,
    length: usize,
}

extern "C" {
    fn kelombary_list(file: *const u8, file_length: usize, buffer: *mut u8, room: usize) -> Answer;
}

/// The listing of a file, as the checker gives it.
pub fn listing(file: &[u8]) -> Vec<u8> {
    let mut buffer = vec![0; LISTING_MOST];
    // The pointers are those of two slices that do not overlap, and none of the library's memory outlives the call.
    let answer = unsafe { kelombary_list(file.as_ptr(), file.len(), buffer.as_mut_ptr(), buffer.len()) };
    assert_eq!(answer.number, LISTED, "the buffer is never too short, and memory is not lacking");
    buffer.truncate(answer.length);
    buffer
}
