//! OpenJPEG's own packet functions, for the benchmark (openjpeg.c).
use std::ffi::c_void;

extern "C" {
    fn openjpeg_new(writer: i32, count: u32, side: u32, planes: u32, block_planes: *const u32) -> *mut c_void;
    fn openjpeg_free(precinct: *mut c_void);
    fn openjpeg_give(precinct: *mut c_void, counts: *const u32, lengths: *const u32, passes: usize, body: *const u8);
    fn openjpeg_write(precinct: *mut c_void, output: *mut u8, room: usize) -> usize;
    fn openjpeg_read(precinct: *mut c_void, src: *const u8, n: usize) -> usize;
    fn openjpeg_settle(precinct: *mut c_void);
}

/// A precinct whose bands have `side` blocks across and down.
pub struct Precinct(*mut c_void);

impl Precinct {
    pub fn writer(count: u32, side: u32, planes: u32, block_planes: &[u32]) -> Precinct {
        assert_eq!(block_planes.len(), (count * side * side) as usize);
        // SAFETY: there are planes for each block.
        Precinct(unsafe { openjpeg_new(1, count, side, planes, block_planes.as_ptr()) })
    }

    pub fn reader(count: u32, side: u32, planes: u32) -> Precinct {
        // SAFETY: a reader looks at no block planes.
        Precinct(unsafe { openjpeg_new(0, count, side, planes, std::ptr::null()) })
    }

    /// The lists are those of one layer, with a count for each block and a length for each pass; the body lives until the write.
    pub fn give(&mut self, counts: &[u32], lengths: &[u32], body: &[u8]) {
        // SAFETY: as said.
        unsafe { openjpeg_give(self.0, counts.as_ptr(), lengths.as_ptr(), lengths.len(), body.as_ptr()) }
    }

    pub fn write(&mut self, output: &mut [u8]) -> usize {
        // SAFETY: the packet stays inside the output.
        unsafe { openjpeg_write(self.0, output.as_mut_ptr(), output.len()) }
    }

    pub fn read(&mut self, src: &[u8]) -> usize {
        // SAFETY: the input is only read.
        unsafe { openjpeg_read(self.0, src.as_ptr(), src.len()) }
    }

    pub fn settle(&mut self) {
        // SAFETY: a header has been read.
        unsafe { openjpeg_settle(self.0) }
    }
}

impl Drop for Precinct {
    fn drop(&mut self) {
        // SAFETY: made by openjpeg_new.
        unsafe { openjpeg_free(self.0) }
    }
}
