// Memory that ends at a page nobody may touch, with known bytes in front: what is placed there can be
// neither read nor written beyond its end unseen.
use std::ffi::c_void;

extern "C" {
    fn mmap(addr: *mut c_void, len: usize, prot: i32, flags: i32, fd: i32, offset: i64) -> *mut c_void;
    fn mprotect(addr: *mut c_void, len: usize, prot: i32) -> i32;
}

const PAGE: usize = 4096;
const FRONT: usize = 64;

pub struct Guarded {
    end: *mut u8,
    bytes: usize,
}

impl Guarded {
    // Room for so many bytes.
    pub fn new(room: usize) -> Guarded {
        let len = (room + FRONT).next_multiple_of(PAGE);
        // SAFETY: a new private mapping (PROT_READ | PROT_WRITE, MAP_PRIVATE | MAP_ANONYMOUS); its last page is closed.
        unsafe {
            let base = mmap(std::ptr::null_mut(), len + PAGE, 3, 0x22, -1, 0) as *mut u8;
            assert!(base as isize != -1, "no memory");
            let end = base.add(len);
            assert!(mprotect(end as *mut c_void, PAGE, 0) == 0, "no guard");
            Guarded { end, bytes: 0 }
        }
    }

    // Copies the numbers in front of the guard, and says where they are.
    pub fn place<T: Copy>(&mut self, data: &[T]) -> *mut T {
        self.bytes = std::mem::size_of_val(data);
        // SAFETY: the callers place no more than the room they asked for.
        unsafe {
            let to = self.end.sub(self.bytes);
            std::ptr::copy_nonoverlapping(data.as_ptr() as *const u8, to, self.bytes);
            std::ptr::write_bytes(to.sub(FRONT), 0xa5, FRONT);
            to as *mut T
        }
    }

    // What lies there now; None where the bytes in front were written.
    pub fn take<T: Copy>(&self) -> Option<&[T]> {
        // SAFETY: the bytes were placed by `place`.
        unsafe {
            let from = self.end.sub(self.bytes);
            let front = std::slice::from_raw_parts(from.sub(FRONT), FRONT);
            let data = std::slice::from_raw_parts(from as *const T, self.bytes / std::mem::size_of::<T>());
            front.iter().all(|&b| b == 0xa5).then_some(data)
        }
    }
}
