//! The proved library, through the calls that it offers to C.
use crate::plain::Refusal;

extern "C" {
    fn console_answer(bytes: *const u8, length: usize) -> u32;
    fn solve_file(bytes: *const u8, length: usize, out: *mut u8, out_length: usize, spot: *mut [u64; 4]) -> usize;
    fn play_file(
        bytes: *const u8,
        length: usize,
        stem: *const u8,
        stem_length: usize,
        cycle: *const u8,
        cycle_length: usize,
        run: *mut u8,
        run_length: usize,
        spot: *mut [u64; 4],
    ) -> u64;
    fn hoa_file(bytes: *const u8, length: usize, which: usize, out: *mut u8, room: usize, spot: *mut [u64; 4]) -> usize;
}

fn refusal(spot: [u64; 4]) -> Refusal {
    Refusal(spot[0] as u32, spot[1] as usize, spot[2] as usize, spot[3] as usize)
}

pub fn console(bytes: &[u8]) -> u32 {
    unsafe { console_answer(bytes.as_ptr(), bytes.len()) }
}

pub fn solve(bytes: &[u8], out: &mut [u8]) -> Result<usize, Refusal> {
    let mut spot = [0u64; 4];
    let n = unsafe { solve_file(bytes.as_ptr(), bytes.len(), out.as_mut_ptr(), out.len(), &mut spot) };
    if n == 0 {
        Err(refusal(spot))
    } else {
        Ok(n)
    }
}

// stem length and loop length of the run, nothing where there is no table, or the refusal
pub fn play(bytes: &[u8], stem: &[u8], cycle: &[u8], run: &mut [u8]) -> Result<Option<(usize, usize)>, Refusal> {
    let mut spot = [0u64; 4];
    let n = unsafe {
        play_file(
            bytes.as_ptr(),
            bytes.len(),
            stem.as_ptr(),
            stem.len(),
            cycle.as_ptr(),
            cycle.len(),
            run.as_mut_ptr(),
            run.len(),
            &mut spot,
        )
    };
    match (n, spot[0]) {
        (0, 101) => Ok(None),
        (0, _) => Err(refusal(spot)),
        _ => Ok(Some(((n / 65536) as usize, (n % 65536) as usize))),
    }
}

// the length of the text of the rig (0) or of the score (1)
pub fn text(bytes: &[u8], which: usize, out: &mut [u8]) -> Result<usize, Refusal> {
    let mut spot = [0u64; 4];
    let n = unsafe { hoa_file(bytes.as_ptr(), bytes.len(), which, out.as_mut_ptr(), out.len(), &mut spot) };
    if n == 0 {
        Err(refusal(spot))
    } else {
        Ok(n)
    }
}
