//! A program asked for calls over its standard input, answering on its standard
//! output. It is started once, and again only after it was lost on a call.

use super::call::Call;
use super::command::CommandLine;
use super::request::{Files, Reply, Request};
use super::running::Running;

/// Replies that may wait unread: fewer than a pipe holds, so that the program
/// is never kept from reading more requests, and writing these never blocks for
/// good.
const MOST_WAITING: usize = 16 * 1_024;

/// A program of its own and the pipe to it. Whoever drops it waits for the
/// program's end.
pub struct Pipe {
    command: CommandLine,
    /// None after it was lost.
    running: Option<Running>,
}

impl Pipe {
    /// Starts the program; what it writes to standard error is seen on this one's.
    pub fn started(command: CommandLine) -> Result<Self, String> {
        let running = Some(Running::start(&command)?);
        Ok(Pipe { command, running })
    }

    /// What came back for each request on the files, until one did not come back:
    /// that is told in words, and is the last one told.
    pub fn replies(&mut self, requests: &[Request], files: Files) -> Vec<Result<Reply, String>> {
        let mut replies = Vec::with_capacity(requests.len());
        let mut rest = requests;
        while !rest.is_empty() {
            let (batch, more) = rest.split_at(batch_length(rest));
            rest = more;
            if let Err(trouble) = self.batch_asked(batch, files, &mut replies) {
                replies.push(Err(trouble));
                break;
            }
        }
        replies
    }

    fn batch_asked(
        &mut self,
        batch: &[Request],
        files: Files,
        replies: &mut Vec<Result<Reply, String>>,
    ) -> Result<(), String> {
        // Held only while it answers: one that stopped is not asked again.
        let mut running = match self.running.take() {
            Some(running) => running,
            None => Running::start(&self.command)?,
        };
        let mut bytes = Vec::new();
        for request in batch {
            request.append_to(&mut bytes, files);
        }
        running.write(&bytes);
        for request in batch {
            let length = request.reply_length();
            let reply = running.read(length);
            if reply.len() < length {
                return Err(self.lost(running, reply.len(), length));
            }
            replies.push(Ok(request.reply(&reply)));
        }
        self.running = Some(running);
        Ok(())
    }

    /// What to say of a program that stopped within a reply.
    fn lost(&self, mut running: Running, came: usize, length: usize) -> String {
        let ended = match running.ended() {
            Ok(status) => format!("ended with {status}"),
            Err(trouble) => format!("was lost ({trouble})"),
        };
        let command = &self.command;
        format!("{command} {ended} before its reply was complete: {came} of {length} bytes came")
    }

    /// Makes one call, and writes into the outputs that are lent to it what the
    /// call wrote.
    pub(super) fn answer(
        &mut self,
        call: Call,
        files: Files,
        outputs: [&mut [u8]; 2],
    ) -> Result<u64, String> {
        let request = Request { call, fill: 0 };
        let reply = self.replies(&[request], files).remove(0)?;
        let written = call.written(reply.answer);
        if (0..2).any(|k| written[k] > reply.outputs[k].len()) {
            let command = &self.command;
            return Err(format!("{command} tells of more bytes than it was lent"));
        }
        for (k, output) in outputs.into_iter().enumerate() {
            output[..written[k]].copy_from_slice(&reply.outputs[k][..written[k]]);
        }
        Ok(reply.answer)
    }

    /// At the end of its input the program has to end, with nothing more to say.
    pub fn ended(self) -> Result<(), String> {
        let command = self.command;
        let mut running = match self.running {
            Some(running) => running,
            None => return Ok(()),
        };
        let more = running.rest().len();
        match running.ended() {
            Ok(status) if status.success() && more == 0 => Ok(()),
            Ok(status) => Err(format!(
                "{command} wrote {more} more bytes after the last call and ended with {status}"
            )),
            Err(trouble) => Err(format!("{command} was lost: {trouble}")),
        }
    }
}

/// How many of the requests are written before their replies are read: one at
/// least, since the program reads the whole of a request before it replies.
fn batch_length(requests: &[Request]) -> usize {
    let mut waiting = 0;
    let fits = |request: &&Request| {
        waiting += request.reply_length();
        waiting <= MOST_WAITING
    };
    requests.iter().take_while(fits).count().max(1)
}

#[cfg(test)]
mod tests {
    use super::*;

    const ROOMY: Request = Request {
        call: Call::Reduce {
            run: 7,
            lines_len: 191,
            findings_len: 440,
        },
        fill: 0,
    };

    const FILES: Files = Files {
        figure: b"FIG",
        job: b"SRJ",
    };

    fn pipe_to(text: &str) -> Pipe {
        Pipe::started(CommandLine::split(text).unwrap()).unwrap()
    }

    #[test]
    fn the_replies_of_a_batch_fit_a_pipe() {
        let length = batch_length(&[ROOMY; 64]);
        let waiting = length * ROOMY.reply_length();
        assert!((1..64).contains(&length) && waiting <= MOST_WAITING);
        assert_eq!(batch_length(&[ROOMY; 3]), 3);
    }

    #[test]
    fn a_reply_that_fills_a_pipe_is_waited_for_alone() {
        let call = Call::SheetText { out_len: 65_535 };
        assert_eq!(batch_length(&[Request { call, fill: 0 }; 3]), 1);
    }

    #[test]
    fn a_program_that_ends_early_is_told_and_started_again() {
        let mut pipe = pipe_to("false");
        for _ in 0..2 {
            let replies = pipe.replies(&[ROOMY; 3], FILES);
            assert_eq!(replies.len(), 1, "the first call is the only one told");
            let trouble = replies[0].as_ref().unwrap_err();
            assert!(
                trouble.contains("false ended with exit status: 1"),
                "{trouble}"
            );
        }
    }

    #[test]
    fn a_program_that_stops_within_a_reply_is_told() {
        let mut pipe = pipe_to("sh\n-c\nprintf 12345");
        let trouble = pipe.replies(&[ROOMY], FILES).remove(0).unwrap_err();
        assert!(trouble.contains("5 of 639 bytes came"), "{trouble}");
    }

    #[test]
    fn a_program_that_tells_of_too_much_changes_nothing() {
        // 4 characters, where 3 bytes are lent.
        let mut pipe = pipe_to("sh\n-c\nprintf '\\4\\0\\0\\0\\0\\0\\0\\0abc'");
        let mut out = *b"...";
        let call = Call::SheetText { out_len: 3 };
        let trouble = pipe.answer(call, FILES, [&mut out, &mut []]).unwrap_err();
        assert!(trouble.contains("more bytes than it was lent"), "{trouble}");
        assert_eq!(&out, b"...");
    }

    #[test]
    fn a_program_that_does_not_end_with_its_input_is_ended() {
        let mut pipe = pipe_to("sh\n-c\nexec >&-; exec sleep 60");
        let trouble = pipe.replies(&[ROOMY], FILES).remove(0).unwrap_err();
        assert!(trouble.contains("signal: 9"), "{trouble}");
    }

    #[test]
    fn a_program_that_writes_more_after_the_last_call_is_told() {
        let trouble = pipe_to("echo\nmore").ended().unwrap_err();
        assert!(trouble.contains("wrote 5 more bytes"), "{trouble}");
        assert_eq!(pipe_to("cat").ended(), Ok(()));
    }
}
