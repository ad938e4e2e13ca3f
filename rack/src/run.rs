//! A run: four jobs on one controller, interleaved by a seed.

use crate::board::{self, Board, Damage, Heard, Link, Trouble, DRIVES};
use crate::driver::{Command, Desk, Driver, Ledger, Part, Reply, Request};
use crate::faults::Chance;
use crate::host::{self, Completion, Host};
use crate::noise::{LinkChances, LinkFault, Noisy};
use crate::transport::Transport;
use ctc_words::interface::Store;
use std::cell::RefCell;
use std::future::Future;
use std::pin::Pin;
use std::rc::Rc;
use std::task::{Context, Poll, Waker};

/// A job: its number, the drive that it works with, and what its host is told.
#[derive(Clone, Debug, PartialEq, Eq)]
pub struct Job {
    pub number: u8,
    pub drive: u8,
    pub density: u8,
    pub commands: Vec<Command>,
    pub faults: Vec<LinkFault>,
    pub chances: LinkChances,
}

/// What is wrong in a run that tests must find.
#[derive(Clone, Copy, Debug, Default, PartialEq, Eq)]
pub struct Wrongs {
    pub transport: Option<crate::transport::Wrong>,
    pub board: Option<board::Wrong>,
    pub host: Option<host::Wrong>,
}

pub struct Setup {
    pub transports: [Transport; DRIVES],
    pub jobs: Vec<Job>,
    pub damages: Vec<Damage>,
    pub seed: u64,
    /// Whether the events of the run are kept.
    pub keeps: bool,
    /// Whether the board keeps what it ordered and delivered, by which two runs are held to each other.
    pub keeps_orders: bool,
    /// Whether the transports keep their passes, by which losses are judged.
    pub judged: bool,
    pub wrongs: Wrongs,
}

/// What became of a job.
pub struct Ended {
    pub job: Job,
    pub ledger: Rc<RefCell<Ledger>>,
}

/// What is left when all jobs have ended.
pub struct Ran {
    pub host: Host<Noisy<Board>>,
    pub jobs: Vec<Ended>,
    /// How many stores were handed over.
    pub handed: u64,
    /// Why the run was broken off: the board and the controller were at odds.
    pub broken: Option<String>,
}

impl Ran {
    pub fn board(&self) -> &Board {
        &self.host.link.link
    }
}

struct Task {
    job: Job,
    desk: Desk,
    ledger: Rc<RefCell<Ledger>>,
    future: Option<Pin<Box<dyn Future<Output = ()>>>>,
    /// Stores that wait for their place in the queue, and those in it.
    waiting: Vec<Store>,
    queued: usize,
    completions: Vec<Completion>,
    data: Part,
}

/// A run that hands over more stores does not end by itself.
const STORES_MOST: u64 = 100_000;

/// What the run does next.
enum Step {
    Queue(usize),
    Hand,
    Tick,
}

struct Rack<'a> {
    host: Host<Noisy<Board>>,
    tasks: Vec<Task>,
    broken: Option<String>,
    handed: u64,
    progress: &'a mut dyn FnMut(u64, &Board),
}

/// Runs the jobs to their end.
pub fn run(setup: Setup, progress: &mut dyn FnMut(u64, &Board)) -> Ran {
    let Setup { mut transports, jobs, damages, seed, keeps, keeps_orders, judged, wrongs } = setup;
    for transport in &mut transports {
        transport.wrong = wrongs.transport;
        transport.keeps = judged;
    }
    let mut board = Board::new(transports);
    board.keeps = keeps;
    board.keeps_orders = keeps_orders;
    board.damages = damages;
    board.report_all();
    board.wrong = wrongs.board;
    let mut noisy = Noisy::new(board, seed);
    for job in &jobs {
        noisy.set(usize::from(job.number), &job.faults, job.chances);
    }
    let mut host = Host::new(noisy);
    host.wrong = wrongs.host;
    let tasks = jobs.into_iter().map(|job| Task::new(job, wrongs.host)).collect();
    let mut rack = Rack { host, tasks, broken: None, handed: 0, progress };
    rack.run(&mut Chance::new(seed ^ 0xD15B_A7C4));
    rack.host.link.link.rest();
    let jobs = rack.tasks.into_iter().map(|task| Ended { job: task.job, ledger: task.ledger }).collect();
    Ran { host: rack.host, jobs, handed: rack.handed, broken: rack.broken }
}

impl Task {
    fn new(job: Job, wrong: Option<host::Wrong>) -> Task {
        let desk = Desk::default();
        let mut driver = Driver::new(desk.clone(), job.drive, job.density);
        driver.wrong = wrong;
        let ledger = driver.ledger.clone();
        let future: Pin<Box<dyn Future<Output = ()>>> = Box::pin(driver.run(job.commands.clone()));
        Task {
            job,
            desk,
            ledger,
            future: Some(future),
            waiting: Vec::new(),
            queued: 0,
            completions: Vec::new(),
            data: Part::default(),
        }
    }

    fn reply(&mut self, reply: Result<Reply, Trouble>) {
        self.desk.borrow_mut().reply = Some(reply);
    }
}

impl Rack<'_> {
    fn run(&mut self, chance: &mut Chance) {
        for task in 0..self.tasks.len() {
            self.go_on(task);
        }
        let mut steps: Vec<Step> = Vec::new();
        while self.broken.is_none() {
            steps.clear();
            for (index, task) in self.tasks.iter().enumerate() {
                if !task.waiting.is_empty() {
                    steps.push(Step::Queue(index));
                }
            }
            if self.tasks.iter().any(|task| task.queued > 0) {
                steps.push(Step::Hand);
            }
            if steps.is_empty() {
                return;
            }
            if chance.below(16) == 0 {
                steps.clear();
                steps.push(Step::Tick);
            }
            let picked = chance.below(steps.len() as u64) as usize;
            match steps.swap_remove(picked) {
                Step::Queue(task) => self.queue(task),
                Step::Hand => self.hand(),
                Step::Tick => {
                    let hearing = self.host.link.tick();
                    self.heard(hearing);
                }
            }
        }
    }

    fn heard(&mut self, hearing: Result<Heard, Trouble>) {
        match hearing {
            Ok(Heard::Nothing) => {}
            Ok(heard) => self.broken = Some(format!("{heard:?}, and nothing was asked")),
            Err(trouble) => self.trouble(None, trouble),
        }
    }

    fn queue(&mut self, index: usize) {
        let task = &mut self.tasks[index];
        for store in std::mem::take(&mut task.waiting) {
            match self.host.queue(task.job.number, store) {
                Ok(()) => task.queued += 1,
                Err(trouble) => return self.trouble(Some(index), trouble),
            }
        }
    }

    fn hand(&mut self) {
        self.host.link.delivered();
        let (job, heard) = match self.host.link.hand() {
            Ok(Some(handed)) => handed,
            Ok(None) => {
                self.broken = Some("nothing is queued, and a job waits".to_string());
                return;
            }
            Err(trouble) => return self.trouble(None, trouble),
        };
        self.handed += 1;
        if self.handed > STORES_MOST {
            self.broken = Some(format!("no end after {STORES_MOST} stores"));
            return;
        }
        (self.progress)(self.handed, &self.host.link.link);
        let Some(index) = self.tasks.iter().position(|task| task.job.number == job) else {
            self.broken = Some(format!("job {job} has queued nothing"));
            return;
        };
        let data = self.tasks[index].data.clone();
        match self.host.follow(heard, &data) {
            Ok(completion) => {
                let task = &mut self.tasks[index];
                task.completions.push(completion);
                task.queued -= 1;
                if task.queued == 0 && task.waiting.is_empty() {
                    let completions = std::mem::take(&mut task.completions);
                    task.reply(Ok(Reply::Completions(completions)));
                    self.go_on(index);
                }
            }
            Err(trouble) => self.trouble(Some(index), trouble),
        }
    }

    /// A restart ends what every job had under way; anything else ends the run.
    fn trouble(&mut self, index: Option<usize>, trouble: Trouble) {
        if trouble != Trouble::Restarted {
            let job = index.map_or(String::new(), |index| format!(" of job {}", self.tasks[index].job.number));
            self.broken = Some(format!("a call{job} went wrong: {trouble:?}"));
            return;
        }
        for index in 0..self.tasks.len() {
            let task = &mut self.tasks[index];
            if task.queued > 0 || !task.waiting.is_empty() {
                task.waiting.clear();
                task.queued = 0;
                task.completions.clear();
                task.reply(Err(Trouble::Restarted));
                self.go_on(index);
            }
        }
    }

    /// Lets a job go on until it waits for the queue. What it asks of the link is served at once, before anything else
    /// is handed over: check bytes belong to the last GCR record of any drive.
    fn go_on(&mut self, index: usize) {
        loop {
            let task = &mut self.tasks[index];
            let Some(future) = task.future.as_mut() else {
                return;
            };
            let done = future.as_mut().poll(&mut Context::from_waker(Waker::noop())) == Poll::Ready(());
            if done {
                task.future = None;
            }
            let (notes, request) = {
                let mut mail = task.desk.borrow_mut();
                (std::mem::take(&mut mail.notes), mail.request.take())
            };
            let (drive, job) = (task.job.drive, task.job.number);
            for note in notes {
                self.host.link.link.note(Some(drive), || note);
            }
            self.host.link.serve(job);
            let reply = match request {
                None => return,
                Some(Request::Stores(stores, data)) => {
                    let task = &mut self.tasks[index];
                    task.waiting = stores;
                    task.data = data;
                    return;
                }
                Some(Request::Load(number)) => self.host.load(number).map(Reply::Word),
                Some(Request::CheckBytes(drive)) => self.host.check_bytes(drive).map(Reply::Bytes),
            };
            if let Err(trouble) = &reply {
                if *trouble != Trouble::Restarted {
                    self.broken = Some(format!("the link of job {job}: {trouble:?}"));
                    return;
                }
            }
            self.tasks[index].reply(reply);
        }
    }
}
