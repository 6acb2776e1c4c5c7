//! How far down the stack a call reaches: the stack below the caller is painted
//! with a pattern, the call is made, and the lowest octet that has another value
//! afterwards shows how deep it went. Two patterns are tried, so that a call
//! which writes one of them there is seen by the other.
//!
//! What is counted starts in the frame of `depth_over`, so that the frames of
//! this program between there and the C function, some hundred octets, are part
//! of it. What a function reserves and never touches is not seen; below its
//! callers only the deepest function can have such room.
//!
//! All unsafe code stands here.

use std::hint::black_box;
use std::ptr;

/// How far down the stack is painted. A call that goes deeper is not measured.
const PAINTED: usize = 1 << 17;

/// What is left between `paint` and what it paints, for its own frame and the
/// 128 octets below it that a function may use without moving the pointer.
const MARGIN: usize = 256;

const PATTERNS: [u8; 2] = [0x5a, 0xa5];

/// How much stack a thread needs that measures.
pub const STACK_SIZE: usize = 1 << 20;

/// How many octets of the stack a call takes. On a thread with [`STACK_SIZE`].
pub fn depth(call: &mut dyn FnMut()) -> usize {
    let depths = PATTERNS.map(|pattern| depth_over(pattern, call));
    depths[0].max(depths[1])
}

#[inline(never)]
fn depth_over(pattern: u8, call: &mut dyn FnMut()) -> usize {
    let mark = black_box(0_u8);
    let here = address(&mark);
    let top = paint(here - PAINTED, pattern);
    call();
    let depth = here - lowest_touched(here - PAINTED, top, pattern);
    assert!(depth < PAINTED, "a call that takes more than is painted");
    depth
}

/// Paints from an address up to this frame, and answers where it ends.
#[inline(never)]
fn paint(from: usize, pattern: u8) -> usize {
    let mark = black_box(0_u8);
    let top = address(&mark) - MARGIN;
    for at in from..top {
        // SAFETY: the octet is on this thread's stack, which has more than
        // PAINTED octets below the caller, and under every frame that is in use.
        unsafe { ptr::with_exposed_provenance_mut::<u8>(at).write_volatile(pattern) }
    }
    top
}

/// The lowest address that does not have the pattern any more; `top` if all do.
#[inline(never)]
fn lowest_touched(from: usize, top: usize, pattern: u8) -> usize {
    // SAFETY: as in `paint`; the octets were written there.
    let touched =
        |&at: &usize| unsafe { ptr::with_exposed_provenance::<u8>(at).read_volatile() } != pattern;
    (from..top).find(touched).unwrap_or(top)
}

fn address(octet: &u8) -> usize {
    ptr::from_ref(octet).expose_provenance()
}

#[cfg(test)]
mod tests {
    use super::*;

    /// A function with room for so many octets, which it fills.
    #[inline(never)]
    fn take<const N: usize>() {
        black_box(&mut [7_u8; N]);
    }

    fn measured(call: fn()) -> usize {
        let measure = move || depth(&mut || call());
        let thread = std::thread::Builder::new().stack_size(STACK_SIZE);
        let measured = thread.spawn(measure).expect("a thread").join();
        measured.unwrap_or(usize::MAX)
    }

    #[test]
    fn says_when_it_cannot_see() {
        assert_eq!(measured(take::<200_000>), usize::MAX);
    }

    /// What a function takes is seen, and little more.
    #[test]
    fn sees_what_is_taken() {
        let least = measured(|| ());
        assert!(least < 1_024, "{least}");
        for (taken, call) in [
            (4_000, take::<4_000> as fn()),
            (40_000, take::<40_000>),
            (100_000, take::<100_000>),
        ] {
            let depth = measured(call);
            assert!((taken..taken + 1_024).contains(&depth), "{depth}, {taken}");
        }
    }
}
