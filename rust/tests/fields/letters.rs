//! The letters of version 2.

use leverbonnet::Refusal;

use crate::versions::in_version_2;
use crate::{changed, told, with_number, SECOND_RUN, SEVERAL_RUNS, WORKED};

/// The letters of the worked job in version 2.
const LETTERS: [(usize, &str); 7] = [
    (17, "letter of the 1st certificate"),
    (34, "letter of the 2nd certificate"),
    (51, "letter of the 3rd certificate"),
    (68, "letter of the 4th certificate"),
    (88, "meter's letter of the 1st run"),
    (96, "pitot tube's letter of the 1st run"),
    (104, "nozzle's letter of the 1st run"),
];

#[test]
fn every_value_of_every_letter_of_the_worked_job() {
    let job = in_version_2(WORKED).bytes;
    for (place, name) in LETTERS {
        for value in 0..=255 {
            let is = match value {
                b'!'..=b'~' => format!("{value}, the character {},", char::from(value)),
                _ => value.to_string(),
            };
            let expected = match value {
                0 | b'A'..=b'Z' => "read".into(),
                _ => format!(
                    "5 at {place}, the {name} is {is} and not in its range, 0 for none or A to Z"
                ),
            };
            assert_eq!(told(&changed(&job, place, &[value])), expected);
        }
    }
}

/// A refusal for a letter that is in order is another job's.
#[test]
fn a_letter_in_its_range_is_not_said_to_be_out_of_it() {
    let job = in_version_2(WORKED).bytes;
    for (place, _) in LETTERS {
        let refusal = Refusal {
            number: 5,
            place: place as u32,
        };
        for letter in [0, b'A', b'Z'] {
            let job = changed(&job, place, &[letter]);
            assert_eq!(refusal.in_job(&job), refusal.cause());
        }
    }
}

#[test]
fn a_letter_is_judged_behind_its_serial_and_before_what_follows() {
    let job = in_version_2(WORKED).bytes;
    for (place, name) in LETTERS {
        // What follows is a maker, the barometer, or a day and a value.
        let job = changed(&job, place, &[b'a', 0, 0, 0, 0]);
        let expected = format!("5 at {place}, the {name} is 97, the character a, ");
        assert!(told(&job).starts_with(&expected), "{}", told(&job));
        let (serial, name) = (place - 4, name.replace("letter", "serial"));
        let job = changed(&job, serial, &[0; 4]);
        let expected = format!("5 at {serial}, the {name} is 0 ");
        assert!(told(&job).starts_with(&expected), "{}", told(&job));
        // The field that follows is out of its range too.
        let job = changed(&job, serial, &[1, 0, 0, 0, b'A']);
        assert!(told(&job).starts_with("5 at "), "{}", told(&job));
    }
}

#[test]
fn letters_of_a_later_run() {
    let job = in_version_2(SEVERAL_RUNS);
    let run = job.place(SECOND_RUN);
    for (at, name) in [(11, "meter's"), (19, "pitot tube's"), (27, "nozzle's")] {
        let place = run + at;
        let expected = format!(
            "5 at {place}, the {name} letter of the 2nd run is 48, the character 0, and not in its \
             range, 0 for none or A to Z"
        );
        assert_eq!(told(&changed(&job.bytes, place, b"0")), expected);
    }
}

#[test]
fn a_certificate_that_repeats_an_earlier_one_and_its_letter() {
    let job = in_version_2(WORKED).bytes;
    for letter in [0, b'A', b'Z'] {
        let job = changed(&job, 17, &[letter]);
        for (to, name) in [(26, "2nd"), (43, "3rd"), (60, "4th")] {
            let job = changed(&job, to, &job[9..26]);
            let expected = format!(
                "6 at {to}, the {name} certificate repeats kind, maker, serial, letter and day of \
                 an earlier one"
            );
            assert_eq!(told(&job), expected);
            // With a letter of its own it is another meter's.
            assert_eq!(told(&changed(&job, to + 8, b"B")), "read");
        }
    }
}

#[test]
fn a_job_with_the_number_of_the_other_version() {
    assert_eq!(
        told(&with_number(WORKED, 3, 2)),
        "5 at 17, the letter of the 1st certificate is 30 and not in its range, 0 for none or A to Z"
    );
    assert_eq!(
        told(&with_number(&in_version_2(WORKED).bytes, 3, 1)),
        "5 at 19, the factor Y of the 1st certificate, a meter's, is 4,131 and not in its range, \
         9,000 to 11,000 in units of 1/10,000"
    );
}
