//! Requests to valgrind's memcheck, which a program that runs under it may make; elsewhere they do
//! nothing. They are those of `valgrind/memcheck.h`.

const RUNNING_ON_VALGRIND: usize = 0x1001;
const COUNT_ERRORS: usize = 0x1201;

/// Memcheck's own requests: `MC`, and a number.
const MAKE_UNDEFINED: usize = 0x4d43_0001;
const MAKE_DEFINED: usize = 0x4d43_0002;
const CHECK_DEFINED: usize = 0x4d43_0005;

/// Makes a request with two arguments; 0 outside of valgrind. The rotations come to 128 bits and
/// leave the register as it was: valgrind knows them, and a processor does nothing.
#[cfg(target_arch = "x86_64")]
fn request(request: usize, first: usize, second: usize) -> usize {
    let arguments: [usize; 6] = [request, first, second, 0, 0, 0];
    let result;
    // SAFETY: the instructions change no register but the result's, and no memory.
    unsafe {
        std::arch::asm!(
            "rol rdi, 3",
            "rol rdi, 13",
            "rol rdi, 61",
            "rol rdi, 51",
            "xchg rbx, rbx",
            in("rax") arguments.as_ptr(),
            inout("rdx") 0_usize => result,
        );
    }
    result
}

#[cfg(not(target_arch = "x86_64"))]
fn request(_: usize, _: usize, _: usize) -> usize {
    0
}

/// Whether the program runs under valgrind.
pub fn running() -> bool {
    request(RUNNING_ON_VALGRIND, 0, 0) > 0
}

/// How many errors valgrind has found.
pub fn errors() -> usize {
    request(COUNT_ERRORS, 0, 0)
}

fn on<T>(what: usize, part: &[T]) {
    request(what, part.as_ptr().addr(), size_of_val(part));
}

/// Takes what stands there for undefined: memcheck reports if an answer depends on it.
pub fn make_undefined<T>(part: &mut [T]) {
    on(MAKE_UNDEFINED, part);
}

/// Takes what stands there for defined.
pub fn make_defined<T>(part: &mut [T]) {
    on(MAKE_DEFINED, part);
}

/// Has memcheck report what stands there undefined.
pub fn check_defined<T>(part: &[T]) {
    on(CHECK_DEFINED, part);
}

/// A slice that claims one byte more than its block has: valgrind must report whoever uses it.
pub fn one_more(block: &mut [u8]) -> &mut [u8] {
    assert!(running(), "a wrong length is lent under valgrind alone");
    // SAFETY: there is none, and that is what the self-test is about.
    unsafe { std::slice::from_raw_parts_mut(block.as_mut_ptr(), block.len() + 1) }
}
