//! The plain calls, by the way that the typed ones go: what each lent byte is
//! afterwards.

#[cfg(all(target_arch = "x86_64", not(feature = "piped")))]
use leverbonnet::linked as calls;
#[cfg(not(all(target_arch = "x86_64", not(feature = "piped"))))]
use leverbonnet::pipe as calls;

use leverbonnet::{MOST_EXPLANATION, MOST_EXPLANATION_TEXT, MOST_TEXT};

const WORKED: &[u8] = include_bytes!("../../examples/worked.job");
const WORKED_TEXT: &[u8] = include_bytes!("../../examples/worked.txt");

/// One step in each list, made up. The worked job is far from disturbances, so that
/// it comes to the same by any figure.
const FIGURE: &[u8] = b"FIG\x01\0\x01\0\0\x30\x31\x01\0\0\x30\x31";

/// The worked job's only finding, note 11 at segment 1, explained: no certificate day, and
/// one condition, the first, which is above: 540,000 and 360,000, without a remainder.
const EXPLAINED: [u8; 36] = [
    1, 0, 1, 2, 0x60, 0x3D, 0x08, 0, 0, 0, 0, 0, 0x40, 0x7E, 0x05, 0, 0, 0, 0, 0, 0, 0, 0, 0, 0, 0,
    0, 0, 0, 0, 0, 0, 0, 0, 0, 0,
];
const EXPLAINED_TEXT: &[u8] = b"NOTE 11 1
  COMPARED 540000 ABOVE 360000  5 x time x leak; the smaller of 100 x time and 12 x volume (time in \
seconds, leak in 0.001 cfm, volume in 0.001 ft3)\n";

const UNTOUCHED: u8 = 0xA5;
const TOO_SHORT: u64 = 9 << 32;
const ACCEPTED: u64 = 65_536;

/// The library's own word, by either way.
trait Answer {
    fn word(self) -> u64;
}

impl Answer for u64 {
    fn word(self) -> u64 {
        self
    }
}

impl Answer for Result<u64, String> {
    fn word(self) -> u64 {
        self.unwrap()
    }
}

fn untouched(bytes: &[u8]) -> bool {
    bytes.iter().all(|&byte| byte == UNTOUCHED)
}

#[test]
fn reduce_writes_the_lines_and_findings_and_nothing_beyond() {
    let mut lines = [UNTOUCHED; 200];
    let mut findings = [UNTOUCHED; 40];
    let answer = calls::reduce(WORKED, 7, &mut lines, &mut findings).word();
    assert_eq!(answer, ACCEPTED + 1);
    assert_eq!(lines[..9], [1, 0x10, 0x0E, 0, 0, 0, 0, 0, 0]);
    assert_eq!(lines[171..180], [1, 0x67, 0x10, 0, 0, 0, 0, 0, 0]);
    assert_eq!(findings[..4], [11, 2, 1, 0]);
    assert!(untouched(&lines[180..]) && untouched(&findings[4..]));
}

#[test]
fn a_refused_reduce_changes_no_byte() {
    for (lines_len, findings_len) in [(179, 4), (180, 3), (0, 0)] {
        let mut lines = vec![UNTOUCHED; lines_len];
        let mut findings = vec![UNTOUCHED; findings_len];
        let answer = calls::reduce(WORKED, 7, &mut lines, &mut findings).word();
        assert_eq!(answer, TOO_SHORT);
        assert!(untouched(&lines) && untouched(&findings));
    }
}

#[test]
fn reduce_by_figure_writes_what_reduce_does_and_nothing_beyond() {
    let (mut lines, mut findings) = ([UNTOUCHED; 200], [UNTOUCHED; 40]);
    calls::reduce(WORKED, 7, &mut lines, &mut findings).word();
    for (lines_len, findings_len) in [(180, 4), (200, 40)] {
        let mut by_figure = (vec![UNTOUCHED; lines_len], vec![UNTOUCHED; findings_len]);
        let (own_lines, own_findings) = (&mut by_figure.0, &mut by_figure.1);
        let answer = calls::reduce_by_figure(FIGURE, WORKED, 7, own_lines, own_findings).word();
        assert_eq!(answer, ACCEPTED + 1);
        assert_eq!(own_lines[..], lines[..lines_len]);
        assert_eq!(own_findings[..], findings[..findings_len]);
    }
}

#[test]
fn a_refused_reduce_by_figure_changes_no_byte() {
    let short = &FIGURE[..FIGURE.len() - 1];
    for (figure, job, run, lens, refused) in [
        (short, WORKED, 7, (200, 40), 14 << 32 | 14),
        (short, &[][..], 7, (200, 40), 14 << 32 | 14),
        (FIGURE, &[][..], 7, (200, 40), 1 << 32),
        (FIGURE, WORKED, 8, (0, 0), 10 << 32),
        (FIGURE, WORKED, 7, (179, 4), TOO_SHORT),
        (FIGURE, WORKED, 7, (180, 3), TOO_SHORT),
    ] {
        let (mut lines, mut findings) = (vec![UNTOUCHED; lens.0], vec![UNTOUCHED; lens.1]);
        let answer = calls::reduce_by_figure(figure, job, run, &mut lines, &mut findings).word();
        assert_eq!(answer, refused);
        assert!(untouched(&lines) && untouched(&findings));
    }
}

#[test]
fn layouts_write_their_distances_and_nothing_beyond() {
    let mut out = [UNTOUCHED; 100];
    assert_eq!(calls::round_layout(2, 1_000, 250, &mut out).word(), 8);
    assert!(untouched(&out[8..]) && !untouched(&out[..8]));
    let mut out = [UNTOUCHED; 100];
    assert_eq!(calls::rect_layout(9, 300, 300, &mut out).word(), 72);
    assert_eq!(out[..8], [0x88, 0x13, 0, 0, 0x88, 0x13, 0, 0]);
    assert!(untouched(&out[72..]));
}

#[test]
fn a_refused_layout_changes_no_byte() {
    let mut out = [UNTOUCHED; 71];
    assert_eq!(calls::rect_layout(9, 300, 300, &mut out).word(), TOO_SHORT);
    assert!(untouched(&out));
}

#[test]
fn a_text_is_written_and_nothing_beyond() {
    let length = WORKED_TEXT.len();
    for room in [length, length + 1, MOST_TEXT, 70_000] {
        let mut out = vec![UNTOUCHED; room];
        assert_eq!(calls::sheet_text(WORKED, &mut out).word(), length as u64);
        assert_eq!(&out[..length], WORKED_TEXT);
        assert!(untouched(&out[length..]));
    }
}

#[test]
fn a_text_too_long_by_one_changes_no_byte() {
    let mut out = vec![UNTOUCHED; WORKED_TEXT.len() - 1];
    assert_eq!(calls::sheet_text(WORKED, &mut out).word(), TOO_SHORT);
    assert!(untouched(&out));
}

#[test]
fn the_text_of_a_refused_job_changes_no_byte() {
    let mut out = [UNTOUCHED; MOST_TEXT];
    assert_eq!(
        calls::sheet_text(&WORKED[..9], &mut out).word(),
        1 << 32 | 9
    );
    assert!(untouched(&out));
}

#[test]
fn a_text_by_figure_is_written_and_nothing_beyond() {
    let length = WORKED_TEXT.len();
    for room in [length, length + 1, MOST_TEXT, 70_000] {
        let mut out = vec![UNTOUCHED; room];
        let answer = calls::sheet_text_by_figure(FIGURE, WORKED, &mut out).word();
        assert_eq!(answer, length as u64);
        assert_eq!(&out[..length], WORKED_TEXT);
        assert!(untouched(&out[length..]));
    }
}

#[test]
fn a_refused_text_by_figure_changes_no_byte() {
    for (figure, job, room, refused) in [
        (&FIGURE[..3], WORKED, MOST_TEXT, 14 << 32 | 3),
        (&[][..], &[][..], MOST_TEXT, 14 << 32),
        (FIGURE, &WORKED[..9], MOST_TEXT, 1 << 32 | 9),
        (FIGURE, WORKED, WORKED_TEXT.len() - 1, TOO_SHORT),
    ] {
        let mut out = vec![UNTOUCHED; room];
        let answer = calls::sheet_text_by_figure(figure, job, &mut out).word();
        assert_eq!(answer, refused);
        assert!(untouched(&out));
    }
}

/// One of the four calls that explain the worked job's finding, over an output.
type Explains = fn(&mut [u8]) -> u64;

/// Each of the four, what it writes, and the room that always suffices.
const EXPLAINING: [(Explains, &[u8], usize); 4] = [
    (
        |out| calls::explain(WORKED, 7, 11, 1, out).word(),
        &EXPLAINED,
        MOST_EXPLANATION,
    ),
    (
        |out| calls::explain_by_figure(FIGURE, WORKED, 7, 11, 1, out).word(),
        &EXPLAINED,
        MOST_EXPLANATION,
    ),
    (
        |out| calls::explain_text(WORKED, 7, 11, 1, out).word(),
        EXPLAINED_TEXT,
        MOST_EXPLANATION_TEXT,
    ),
    (
        |out| calls::explain_text_by_figure(FIGURE, WORKED, 7, 11, 1, out).word(),
        EXPLAINED_TEXT,
        MOST_EXPLANATION_TEXT,
    ),
];

#[test]
fn an_explanation_is_written_and_nothing_beyond() {
    for (explains, explained, most) in EXPLAINING {
        let length = explained.len();
        for room in [length, length + 1, most, 70_000] {
            let mut out = vec![UNTOUCHED; room];
            assert_eq!(explains(&mut out), length as u64);
            assert_eq!(&out[..length], explained);
            assert!(untouched(&out[length..]));
        }
    }
}

#[test]
fn an_explanation_too_long_changes_no_byte() {
    for (explains, explained, _) in EXPLAINING {
        for room in 0..explained.len() {
            let mut out = vec![UNTOUCHED; room];
            assert_eq!(explains(&mut out), TOO_SHORT);
            assert!(untouched(&out));
        }
    }
}

#[test]
fn an_explanation_that_is_refused_changes_no_byte() {
    let short = &FIGURE[..FIGURE.len() - 1];
    for (figure, job, run, place, refused) in [
        (short, &WORKED[..9], 8, 2, 14 << 32 | 14),
        (FIGURE, &WORKED[..9], 8, 2, 1 << 32 | 9),
        (FIGURE, WORKED, 8, 2, 10 << 32),
        (FIGURE, WORKED, 7, 2, 15 << 32),
    ] {
        // Whether the output would suffice or not.
        for room in [0, 1_024] {
            let mut out = vec![UNTOUCHED; room];
            if figure == FIGURE {
                assert_eq!(
                    calls::explain(job, run, 11, place, &mut out).word(),
                    refused
                );
                let answer = calls::explain_text(job, run, 11, place, &mut out).word();
                assert_eq!(answer, refused);
            }
            let answer = calls::explain_by_figure(figure, job, run, 11, place, &mut out).word();
            assert_eq!(answer, refused);
            let answer = calls::explain_text_by_figure(figure, job, run, 11, place, &mut out);
            assert_eq!(answer.word(), refused);
            assert!(untouched(&out));
        }
    }
}
