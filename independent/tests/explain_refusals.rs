//! What the calls that explain a finding refuse, in which order, and what they write.

use independent::job::{Job, Run, Version};
use independent::{explain, explain_by_figure, explain_text, explain_text_by_figure};
use independent::{samples, work};

const UNTOUCHED: u8 = 0xA5;

/// A run, a rule and a place to ask for.
type Asked = (u16, u16, u16);

/// A call with all but its output.
type Call<'a> = &'a dyn Fn(&mut [u8]) -> u64;

/// The number and place with which both calls refuse, and touch no output of that length.
fn refused_by(calls: [Call; 2], out_len: usize) -> (u64, u64) {
    let [answer, as_text] = calls.map(|call| {
        let mut out = vec![UNTOUCHED; out_len];
        let answer = call(&mut out);
        assert_eq!(out, vec![UNTOUCHED; out_len]);
        answer
    });
    assert_eq!(as_text, answer);
    (answer >> 32, answer & 0xFFFF_FFFF)
}

fn refused_by_figure(
    figure: &[u8],
    job: &[u8],
    (run, rule, place): Asked,
    out_len: usize,
) -> (u64, u64) {
    let as_bytes: Call = &|out| explain_by_figure(figure, job, run, rule, place, out);
    let as_text: Call = &|out| explain_text_by_figure(figure, job, run, rule, place, out);
    refused_by([as_bytes, as_text], out_len)
}

/// Without a figure, and by one that changes nothing of it.
fn refused(job: &[u8], asked: Asked, out_len: usize) -> (u64, u64) {
    let (run, rule, place) = asked;
    let as_bytes: Call = &|out| explain(job, run, rule, place, out);
    let as_text: Call = &|out| explain_text(job, run, rule, place, out);
    let without = refused_by([as_bytes, as_text], out_len);
    let figure = samples::made_up().bytes();
    assert_eq!(refused_by_figure(&figure, job, asked, out_len), without);
    without
}

/// The note of the worked job.
const FOUND: Asked = (7, 11, 1);
const NO_FINDING: Asked = (7, 12, 0);
const NO_RUN: Asked = (8, 11, 1);

/// With each trouble more that comes before it the answer becomes that one's.
#[test]
fn refusals_come_in_their_order() {
    for version in Version::ALL {
        let job = Job {
            version,
            ..samples::worked()
        };
        let read = job.bytes();
        let cut = &read[..100];
        for out_len in [0, 1] {
            assert_eq!(refused(&read, FOUND, out_len), (9, 0));
            assert_eq!(refused(&read, NO_FINDING, out_len), (15, 0));
            assert_eq!(refused(&read, NO_RUN, out_len), (10, 0));
            assert_eq!(refused(cut, NO_RUN, out_len), (1, 100));
            assert_eq!(refused_by_figure(b"XIG", cut, NO_RUN, out_len), (14, 0));
        }
        for asked in [FOUND, NO_FINDING, NO_RUN] {
            assert_eq!(refused(cut, asked, 2_000), (1, 100));
            assert_eq!(refused_by_figure(b"XI", &read, asked, 2_000), (14, 2));
            assert_eq!(refused_by_figure(b"XI", cut, asked, 2_000), (14, 2));
        }
    }
}

#[test]
fn findings_that_the_run_does_not_have() {
    let job = samples::worked().bytes();
    for (rule, place) in [
        (0, 0),
        (0, 1),
        (13, 0),
        (21, 0),
        (255, 1),
        (256 + 11, 1),
        (u16::MAX, 1),
        (11, 0),
        (11, 2),
        (11, 257),
        (11, u16::MAX),
        (10, 1),
        (12, 1),
        (1, 0),
        (9, 0),
    ] {
        for out_len in [0, 70] {
            let refused = refused(&job, (7, rule, place), out_len);
            assert_eq!(refused, (15, 0), "rule {rule} at {place}");
        }
    }
}

/// Of every rule and place about those that there are, the findings alone are explained.
#[test]
fn exactly_the_findings_are_explained() {
    for version in Version::ALL {
        let job = Job {
            version,
            ..samples::several_runs()
        };
        let bytes = job.bytes();
        for run in &job.runs {
            let mut explained = Vec::new();
            for rule in 0..=21 {
                for place in 0..=13 {
                    let mut out = [0; 70];
                    let answer = explain(&bytes, run.number, rule, place, &mut out);
                    match answer >> 32 {
                        0 => explained.push((rule, place)),
                        refusal => assert_eq!((refusal, answer as u32), (15, 0)),
                    }
                }
            }
            assert_eq!(explained, findings(&job, run));
        }
    }
}

/// Rule and place of each.
fn findings(job: &Job, run: &Run) -> Vec<(u16, u16)> {
    let findings = work(None, job, run).findings.into_iter();
    findings
        .map(|finding| (finding.rule.into(), finding.place))
        .collect()
}

/// A finding that only the figure makes is none without it.
#[test]
fn a_finding_by_the_figure_alone_is_explained_by_it_alone() {
    let (figure, job) = (samples::made_up().bytes(), samples::more_points().bytes());
    let mut out = [UNTOUCHED; 70];
    assert_eq!(explain(&job, 7, 9, 0, &mut out), 15 << 32);
    assert_eq!(explain_text(&job, 7, 9, 0, &mut out), 15 << 32);
    assert_eq!(out, [UNTOUCHED; 70]);
    assert_eq!(explain_by_figure(&figure, &job, 7, 9, 0, &mut out), 36);
    let kept = samples::fewer_points().bytes();
    assert_eq!(
        explain_by_figure(&figure, &kept, 7, 9, 0, &mut out),
        15 << 32
    );
    assert_eq!(explain(&kept, 7, 9, 0, &mut out), 36);
}

#[test]
fn an_output_of_the_exact_length_is_filled_and_a_longer_one_no_further() {
    let job = samples::worked().bytes();
    let calls: [(Call, usize); 2] = [
        (&|out| explain(&job, 7, 11, 1, out), 36),
        (&|out| explain_text(&job, 7, 11, 1, out), TEXT.len()),
    ];
    for (call, needed) in calls {
        let mut exact = vec![UNTOUCHED; needed];
        assert_eq!(call(&mut exact), needed as u64);
        let mut longer = vec![UNTOUCHED; needed + 3];
        assert_eq!(call(&mut longer), needed as u64);
        assert_eq!(longer, [&exact[..], &[UNTOUCHED; 3]].concat());
        for out_len in 0..needed {
            assert_eq!(refused_by([call; 2], out_len), (9, 0));
        }
    }
    let mut text = vec![0; TEXT.len()];
    explain_text(&job, 7, 11, 1, &mut text);
    assert_eq!(String::from_utf8(text).unwrap(), TEXT);
}

const TEXT: &str = "\
NOTE 11 1
  COMPARED 540000 ABOVE 360000  5 x time x leak; the smaller of 100 x time and 12 x volume (time in seconds, leak in 0.001 cfm, volume in 0.001 ft3)
";
