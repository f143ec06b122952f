//! A whole replay script (docs/REPLAY.md). These calls need some 400 KB of stack.

use crate::raw;

/// How much the lines of a script tell, in bytes or cells, and whether none of them is bad; a bad line ends the run.
#[derive(Clone, Copy, Debug, PartialEq, Eq)]
pub struct Ran {
    pub len: usize,
    pub good: bool,
}

/// The answers of a script's lines, as many bytes of them as there is room for; all are there where `len` is at most `out.len()`.
pub fn answers(script: &[u8], out: &mut [u8]) -> Ran {
    let mut good = false;
    let len = unsafe {
        raw::birchjack_answers(
            script.as_ptr(),
            script.len(),
            out.as_mut_ptr(),
            out.len(),
            &mut good,
        )
    };
    Ran { len, good }
}

/// The sound of a script's lines in stereo cells, left before right, as many of them as there is room for.
pub fn sound(script: &[u8], out: &mut [i16]) -> Ran {
    let mut good = false;
    let len = unsafe {
        raw::birchjack_sound(
            script.as_ptr(),
            script.len(),
            out.as_mut_ptr(),
            out.len(),
            &mut good,
        )
    };
    Ran { len, good }
}

/// All of the answers, and whether no line is bad. The script is run twice: once for the length.
pub fn answers_of(script: &[u8]) -> (Vec<u8>, bool) {
    let mut out = vec![0; answers(script, &mut []).len];
    let ran = answers(script, &mut out);
    (out, ran.good)
}

/// All of the sound, and whether no line is bad. The script is run twice: once for the length.
pub fn sound_of(script: &[u8]) -> (Vec<i16>, bool) {
    let mut out = vec![0; sound(script, &mut []).len];
    let ran = sound(script, &mut out);
    (out, ran.good)
}
