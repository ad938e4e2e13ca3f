//! Lines and words that are typed: each is played, and told beside its meaning.

use crate::explain::{put_awaited, Explainer, Options};
use crate::line::{split, Buffers, Program};
use crate::make::Made;
use crate::statement::BEGINNINGS;
use std::path::Path;

pub struct Prompt {
    explainer: Explainer,
    buffers: Buffers,
    program: Program,
    terminal: bool,
}

impl Prompt {
    pub fn new(program: Program, terminal: bool) -> Prompt {
        let options = Options {
            program,
            answers: false,
            only_actions: false,
            drive: None,
        };
        Prompt {
            explainer: Explainer::new(options),
            buffers: Buffers::default(),
            program,
            terminal,
        }
    }

    /// What stands there before anything is typed.
    pub fn start(&self, out: &mut Vec<u8>) {
        if self.terminal {
            out.extend_from_slice(
                b"Type a line, such as B,62, or words, such as load primary; help says more, Ctrl-D ends.\n",
            );
            self.put_awaited(out);
        }
    }

    /// What the controller waits for, where the next line is typed.
    fn put_awaited(&self, out: &mut Vec<u8>) {
        out.push(b'[');
        put_awaited(self.explainer.player(), out);
        out.extend_from_slice(b"] ");
    }

    /// Answers a line, given without its #0A.
    pub fn answer(&mut self, text: &[u8], out: &mut Vec<u8>) {
        let typed = text.trim_ascii();
        let is_line = self.buffers.read(text, self.program).is_ok() || text.first() == Some(&b'#');
        match typed {
            _ if is_line => self.explainer.tell(text, out),
            b"help" | b"?" => self.help(out),
            b"" => {}
            _ => self.words(typed, out),
        }
        if self.terminal {
            self.put_awaited(out);
        }
    }

    fn words(&mut self, typed: &[u8], out: &mut Vec<u8>) {
        let mut made = Made::of(self.explainer.player().clone(), Path::new(""));
        let mut lines = Vec::new();
        match made.statement(typed, &mut lines) {
            Ok(()) => {
                for line in split(&lines) {
                    self.explainer.tell(line, out);
                }
            }
            Err(error) => {
                // a line that was meant as one is told as one
                if matches!(typed.get(1), Some(b',')) || typed.len() < 2 {
                    self.explainer.tell(typed, out);
                } else {
                    let what = format!(
                        "column {}: {}; nothing was played\n",
                        error.column, error.what
                    );
                    out.extend_from_slice(what.as_bytes());
                }
            }
        }
    }

    fn help(&self, out: &mut Vec<u8>) {
        let jobs = match self.program {
            Program::Jobs => "  Q,job,address,operand    a job queues a store      H   the next store is handed over\n",
            Program::Session => "",
        };
        let help = format!(
            "Lines:\n\
             \x20 B,byte   a byte from the host       T   the host took the ACK   X   the link was broken\n\
             \x20 S,drive,byte   a drive reports      K   a tick                  Z   a reset\n\
             \x20 D,host   the host bytes of a write\n\
             \x20 R,code,mark,late,image,marks,space   the result of a move\n{jobs}\
             Words, which make the lines that they need:\n\
             \x20 report drive 1 installed selectable\n\
             \x20 read drive 1 interrupt              result good record text \"HELLO\"\n\
             \x20 write drive 1 from text \"HELLO\"     result good\n\
             \x20 accept   refuse   load primary   tick   reset\n\
             A statement begins with {BEGINNINGS}.\n\
             docs/WORDS.md has them all. What the controller waits for stands in brackets.\n"
        );
        out.extend_from_slice(help.as_bytes());
    }
}
