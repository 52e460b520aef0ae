//! Wave files typed out, each with its answer: the corners of the rules. And a file to be written.

use super::run::{Checked, Run};
use crate::reference::ACCEPTED;
use crate::wave::Read;

/// The RIFF heading with a size that is not used, a fitting format, another, and data of one frame.
const RIFF: &[u8] = b"RIFF\x07\0\0\0WAVE";
const FMT: &[u8] = b"fmt \x10\0\0\0\x01\0\x02\0\x44\xAC\0\0\x10\xB1\x02\0\x04\0\x10\0";
const MONO: &[u8] = b"fmt \x10\0\0\0\x01\0\x01\0\x44\xAC\0\0\x88\x58\x01\0\x02\0\x10\0";
const DATA: &[u8] = b"data\x04\0\0\0\x01\x02\x03\x04";
/// The sixteen bytes of a fitting format, to stand behind a size.
const FORMAT: &[u8] = b"\x01\0\x02\0\x44\xAC\0\0\x10\xB1\x02\0\x04\0\x10\0";

/// Files, each with the refusal's number, where the data begins, and the count of its bytes.
const FILES: &[(&[&[u8]], Read)] = &[
    (&[RIFF, FMT, DATA], (0, 44, 4)),
    (&[b"RIFF\xFF\xFF\xFF\xFFWAVE", FMT, DATA], (0, 44, 4)),
    // No bytes of data, at the end and ahead of others.
    (&[RIFF, FMT, b"data\0\0\0\0"], (0, 44, 0)),
    (&[RIFF, FMT, b"data\0\0\0\0", DATA], (0, 44, 0)),
    // Formats of more than sixteen bytes, and of an odd size.
    (&[RIFF, b"fmt \x12\0\0\0", FORMAT, b"\0\0", DATA], (0, 46, 4)),
    (&[RIFF, b"fmt \x11\0\0\0", FORMAT, b"\xFFd", DATA], (0, 46, 4)),
    // The first format and the first data count.
    (&[RIFF, FMT, MONO, DATA], (0, 68, 4)),
    (&[RIFF, FMT, b"fmt \x01\0\0\0\x01\0", DATA], (0, 54, 4)),
    (&[RIFF, FMT, DATA, b"data\x08\0\0\0\x01\x02\x03\x04\x05\x06\x07\x08"], (0, 44, 4)),
    (&[RIFF, FMT, DATA, MONO], (0, 44, 4)),
    // Other chunks ahead, of no bytes, and with pad bytes of any value.
    (&[RIFF, b"LIST\0\0\0\0", FMT, b"\0\0\0\0\0\0\0\0", DATA], (0, 60, 4)),
    (&[RIFF, b"junk\x01\0\0\0\x01\xFF", FMT, b"junk\x03\0\0\0\x01\x02\x03d", DATA], (0, 66, 4)),
    (&[RIFF, FMT, b"LIST\x0C\0\0\0data\x04\0\0\0\x01\x02\x03\x04", DATA], (0, 64, 4)),
    (&[RIFF, b"FMT \x02\0\0\0\x01\x02", FMT, b"Data\x04\0\0\0\x01\x02\x03\x04", DATA], (0, 66, 4)),
    // What stands behind the data is not looked at.
    (&[RIFF, FMT, DATA, b"\x01"], (0, 44, 4)),
    (&[RIFF, FMT, DATA, b"LIST\xFF\xFF\xFF\xFF\x01"], (0, 44, 4)),
    // No RIFF or WAVE heading.
    (&[], (16, 0, 0)),
    (&[b"RIFF\x07\0\0\0WAV"], (16, 0, 0)),
    (&[b"RIFX\x07\0\0\0WAVE", FMT, DATA], (16, 0, 0)),
    (&[b"RF64\x07\0\0\0WAVE", FMT, DATA], (16, 0, 0)),
    (&[b"riff\x07\0\0\0WAVE", FMT, DATA], (16, 0, 0)),
    (&[b"RIFF\x07\0\0\0wave", FMT, DATA], (16, 0, 0)),
    (&[b"RIFF\x07\0\0\0AVI ", FMT, DATA], (16, 0, 0)),
    (&[FMT, DATA], (16, 0, 0)),
    // The heading is tested ahead of the format.
    (&[b"RIFX\x07\0\0\0WAVE", MONO], (16, 0, 0)),
    // Formats that differ, in each of their numbers, whatever comes behind.
    (&[RIFF, MONO, DATA], (17, 0, 0)),
    (&[RIFF, MONO], (17, 0, 0)),
    (&[RIFF, MONO, FMT, DATA], (17, 0, 0)),
    (&[RIFF, b"fmt \x10\0\0\0\xFE\xFF\x02\0\x44\xAC\0\0\x10\xB1\x02\0\x04\0\x10\0", DATA], (17, 0, 0)),
    (&[RIFF, b"fmt \x10\0\0\0\x01\0\x03\0\x44\xAC\0\0\x10\xB1\x02\0\x04\0\x10\0", DATA], (17, 0, 0)),
    (&[RIFF, b"fmt \x10\0\0\0\x01\0\x02\0\x80\xBB\0\0\x10\xB1\x02\0\x04\0\x10\0", DATA], (17, 0, 0)),
    (&[RIFF, b"fmt \x10\0\0\0\x01\0\x02\0\x44\xAC\0\0\0\0\0\0\x04\0\x10\0", DATA], (17, 0, 0)),
    (&[RIFF, b"fmt \x10\0\0\0\x01\0\x02\0\x44\xAC\0\0\x10\xB1\x02\0\x06\0\x10\0", DATA], (17, 0, 0)),
    (&[RIFF, b"fmt \x10\0\0\0\x01\0\x02\0\x44\xAC\0\0\x10\xB1\x02\0\x04\0\x18\0", DATA], (17, 0, 0)),
    // Formats of fewer than sixteen bytes, and such as run past the file.
    (&[RIFF, b"fmt \0\0\0\0", DATA], (17, 0, 0)),
    (&[RIFF, b"fmt \x0F\0\0\0", FORMAT, DATA], (17, 0, 0)),
    (&[RIFF, b"fmt \x10\0\0\0\x01\0\x02\0\x44\xAC\0\0\x10\xB1\x02\0\x04\0\x10"], (17, 0, 0)),
    (&[RIFF, b"fmt \x1D\0\0\0", FORMAT, DATA], (17, 0, 0)),
    (&[RIFF, b"fmt \xFF\xFF\xFF\xFF", FORMAT, DATA], (17, 0, 0)),
    (&[RIFF, b"fmt \xEC\xFF\xFF\xFF", FORMAT, DATA], (17, 0, 0)),
    (&[RIFF, b"fmt \x10\0\0\0"], (17, 0, 0)),
    // Data without a format ahead of it, even where it runs past the file.
    (&[RIFF, DATA], (17, 0, 0)),
    (&[RIFF, DATA, FMT, DATA], (17, 0, 0)),
    (&[RIFF, b"data\xFF\xFF\xFF\xFF"], (17, 0, 0)),
    (&[RIFF, b"data\x06\0\0\0\x01", FMT, DATA], (17, 0, 0)),
    // Neither a format nor data.
    (&[RIFF], (18, 0, 0)),
    (&[RIFF, b"fmt"], (18, 0, 0)),
    (&[RIFF, b"LIST\0\0\0\0"], (18, 0, 0)),
    (&[RIFF, b"LIST\x01\0\0\0\x01", FMT], (18, 0, 0)),
    // No data behind the format: a heading of seven bytes is none.
    (&[RIFF, FMT], (18, 0, 0)),
    (&[RIFF, FMT, b"DATA\x04\0\0\0\x01\x02\x03\x04"], (18, 0, 0)),
    (&[RIFF, FMT, b"data\0\0\0"], (18, 0, 0)),
    (&[RIFF, b"fmt \x11\0\0\0", FORMAT, b"\x01"], (18, 0, 0)),
    // Other chunks that run past the file, a second format among them.
    (&[RIFF, b"LIST\xFF\xFF\xFF\xFF", FMT, DATA], (18, 0, 0)),
    (&[RIFF, b"LIST\x25\0\0\0", FMT, DATA], (18, 0, 0)),
    (&[RIFF, b"LIST\xF8\xFF\xFF\xFF", FMT, DATA], (18, 0, 0)),
    (&[RIFF, b"LIST\xEC\xFF\xFF\xFF", FMT, DATA], (18, 0, 0)),
    (&[RIFF, FMT, b"LIST\x0D\0\0\0", DATA], (18, 0, 0)),
    (&[RIFF, FMT, b"fmt \xFF\xFF\xFF\xFF", DATA], (18, 0, 0)),
    // Data that runs past the file, also where its size is no multiple of four.
    (&[RIFF, FMT, b"data\x04\0\0\0\x01\x02\x03"], (18, 0, 0)),
    (&[RIFF, FMT, b"data\x06\0\0\0\x01\x02\x03\x04\x05"], (18, 0, 0)),
    (&[RIFF, FMT, b"data\xFF\xFF\xFF\xFF\x01\x02\x03\x04"], (18, 0, 0)),
    (&[RIFF, FMT, b"data\xFC\xFF\xFF\xFF\x01\x02\x03\x04"], (18, 0, 0)),
    (&[RIFF, FMT, b"data\xD4\xFF\xFF\xFF\x01\x02\x03\x04"], (18, 0, 0)),
    (&[RIFF, FMT, b"data\0\0\0\x80\x01\x02\x03\x04"], (18, 0, 0)),
    // Whole data of a size that is no multiple of four, with its pad byte and without.
    (&[RIFF, FMT, b"data\x06\0\0\0\x01\x02\x03\x04\x05\x06"], (5, 0, 0)),
    (&[RIFF, FMT, b"data\x05\0\0\0\x01\x02\x03\x04\x05\0"], (5, 0, 0)),
    (&[RIFF, FMT, b"data\x05\0\0\0\x01\x02\x03\x04\x05"], (5, 0, 0)),
    (&[RIFF, FMT, b"data\x02\0\0\0\x01\x02", DATA], (5, 0, 0)),
];

/// The file of two frames.
const TWO_FRAMES: &[u8; 52] = b"RIFF\x2C\0\0\0WAVEfmt \x10\0\0\0\x01\0\x02\0\x44\xAC\0\0\x10\xB1\x02\0\x04\0\x10\0\
    data\x08\0\0\0\xE8\x03\0\0\x01\x02\x03\x04";

pub fn typed(run: &mut Run) -> Checked {
    for (parts, stated) in FILES {
        run.stated_wave(&parts.concat(), *stated)?;
    }
    let (answer, written) = run.write_wave(&TWO_FRAMES[44..], &[0xA5; 53])?;
    run.same((ACCEPTED, &[TWO_FRAMES.as_slice(), &[0xA5]].concat()), (answer, &written), || "two frames".to_string())
}
