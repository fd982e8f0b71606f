//! The proved library, reached in one of two ways.

mod linked;

use std::cell::RefCell;

use leverbonnet::pipe::{CommandLine, Files, Pipe, Request};

use crate::call::{Fill, Outcome, Side, Trial};
use crate::extent::{Extent, FULL, LIGHT};

pub enum Proved {
    /// Part of this program.
    Linked(Side),
    /// A program that makes the calls it is asked for, over pipes.
    Piped(RefCell<Pipe>),
}

impl Proved {
    /// By that command, or else linked where that can be.
    pub fn reached(calls: Option<CommandLine>) -> Result<Self, String> {
        match (calls, linked::side()) {
            (Some(command), _) => {
                let pipe = Pipe::started(command).map_err(|trouble| format!("{trouble}."))?;
                Ok(Proved::Piped(RefCell::new(pipe)))
            }
            (None, Some(side)) => Ok(Proved::Linked(side)),
            (None, None) => Err(
                "The proved library cannot be reached: its archive is for x86-64 only, and \
                 no program that makes its calls is given with --calls or LEVERBONNET_CALLS."
                    .into(),
            ),
        }
    }

    /// How much to compare: calls over pipes, mostly emulated, take long.
    pub fn extent(&self) -> &'static Extent {
        match self {
            Proved::Linked(_) => &FULL,
            Proved::Piped(_) => &LIGHT,
        }
    }

    /// Two fills that differ in every byte.
    pub fn fills(&self) -> [Fill; 2] {
        match self {
            Proved::Linked(_) => [Fill::Pattern, Fill::Complement],
            Proved::Piped(_) => [Fill::Even(0x5A), Fill::Even(0xA5)],
        }
    }

    /// What each trial came to. A call that did not come back is told in words,
    /// and is the last one told.
    pub fn made(&self, trials: &[Trial], files: Files) -> Vec<Result<Outcome, String>> {
        match self {
            Proved::Linked(side) => trials.iter().map(|one| Ok(one.made(side, files))).collect(),
            Proved::Piped(pipe) => {
                let requests: Vec<Request> = trials.iter().map(Trial::request).collect();
                let replies = pipe.borrow_mut().replies(&requests, files);
                let told = replies.into_iter().zip(trials);
                told.map(|(reply, one)| reply.map(|reply| one.told(reply)))
                    .collect()
            }
        }
    }

    /// Whether a program that made the calls ended well after the last one.
    pub fn ended(self) -> Result<(), String> {
        match self {
            Proved::Linked(_) => Ok(()),
            Proved::Piped(pipe) => {
                let ended = pipe.into_inner().ended();
                ended.map_err(|trouble| format!("{trouble}."))
            }
        }
    }
}
