//! The program or the command at work, with its streams in our hands.

use crate::end::{broken_off, ends_whole, Whole};
use crate::program::{ended, Task, Tried, LIMIT};
use std::fs::{read_dir, read_to_string};
use std::io::{Read, Write};
use std::mem::take;
use std::os::unix::process::ExitStatusExt;
use std::process::{Child, Command, ExitStatus, Stdio};
use std::sync::mpsc::{channel, Receiver};
use std::thread::{sleep, spawn};
use std::time::{Duration, Instant};

/// Signals that end a program, with their numbers.
pub const SIGNALS: [(&str, i32); 3] = [("KILL", 9), ("TERM", 15), ("USR1", 10)];

/// What runs, and all that it has printed so far.
pub struct Session {
    tried: Tried,
    task: Task,
    child: Child,
    input: Option<Box<dyn Write>>,
    fed: Vec<u8>,
    output: Receiver<Vec<u8>>,
    printed: Vec<u8>,
    errors: Receiver<Vec<u8>>,
}

impl Session {
    /// Starts it at a pipe to judge.
    pub fn start(tried: Tried) -> Session {
        Session::start_to(tried, Task::Judge)
    }

    /// Starts it at a pipe with this task.
    pub fn start_to(tried: Tried, task: Task) -> Session {
        let mut session = Session::start_on(tried, task, Stdio::piped(), Stdio::piped());
        let pipe = session.child.stdin.take().expect("a pipe");
        session.input = Some(Box::new(pipe));
        session
    }

    /// Starts it with this task on this input and this output.
    pub fn start_on(
        tried: Tried,
        task: Task,
        input: impl Into<Stdio>,
        output: impl Into<Stdio>,
    ) -> Session {
        let mut child = tried
            .start_to(task)
            .stdin(input)
            .stdout(output)
            .stderr(Stdio::piped())
            .spawn()
            .expect("it starts");
        Session {
            tried,
            task,
            input: None,
            fed: Vec::new(),
            output: pieces(child.stdout.take()),
            printed: Vec::new(),
            errors: pieces(child.stderr.take()),
            child,
        }
    }

    /// Hands over bytes; what doesn't fit into the pipe waits until it is read.
    pub fn feed(&mut self, bytes: &[u8]) {
        let input = self.input.as_mut().expect("the input is still open");
        input.write_all(bytes).expect("the input is taken");
        self.fed.extend(bytes);
    }

    /// Hands over bytes in pieces of this length, with a pause behind each, a short one where the pieces are short, and says that nothing is printed while the input is open,
    /// and then what the whole gives.
    pub fn in_pieces(tried: Tried, task: Task, bytes: &[u8], piece: usize, pause: Duration) {
        let mut session = Session::start_to(tried, task);
        for part in bytes.chunks(piece) {
            session.feed(part);
            if piece < 60 {
                sleep(Duration::from_millis(1));
            } else {
                assert_eq!(session.after(pause), "", "the input is still open");
            }
        }
        assert_eq!(session.after(pause), "", "the input is still open");
        assert_eq!(session.close().as_bytes(), Whole::of(task, bytes).report);
    }

    /// Waits until as many bytes are printed, or the limit is past, and gives how many are.
    pub fn wait_for(&mut self, length: usize) -> usize {
        let start = Instant::now();
        while self.printed.len() < length {
            match self
                .output
                .recv_timeout(LIMIT.saturating_sub(start.elapsed()))
            {
                Ok(piece) => self.printed.extend(piece),
                Err(_) => break,
            }
        }
        self.printed.len()
    }

    /// Waits until as many bytes are printed, or the limit is past, and gives all that are.
    pub fn printed(&mut self, length: usize) -> String {
        self.wait_for(length);
        self.so_far()
    }

    /// Waits as long as said and gives all that is printed then; panics when anything is said on standard error.
    pub fn after(&mut self, pause: Duration) -> String {
        let end = Instant::now() + pause;
        while let Ok(piece) = self
            .output
            .recv_timeout(end.saturating_duration_since(Instant::now()))
        {
            self.printed.extend(piece);
        }
        assert!(self.errors.try_recv().is_err(), "it says its end too early");
        self.so_far()
    }

    /// Gives the largest memory that the program has had, in KiB.
    pub fn peak(&self) -> u64 {
        let status = read_to_string(format!("/proc/{}/status", self.child.id()));
        let status = status.expect("the program is there");
        let mut peaks = status
            .lines()
            .filter_map(|line| line.strip_prefix("VmHWM:"));
        let peak = peaks.next().expect("its peak is told");
        let number = peak.trim().strip_suffix(" kB").expect("it is told in KiB");
        number.parse().expect("it is a number")
    }

    /// Sends the program a signal, also where the command runs it.
    pub fn signal_program(&self, name: &str) {
        let mut process = self.child.id().to_string();
        while let Some(child) = child_of(&process) {
            process = child;
        }
        send(name, &process);
    }

    /// Sends a signal to what was started, and to nothing that this started in turn.
    pub fn signal(&self, name: &str) {
        send(name, &self.child.id().to_string());
    }

    /// Ends the program by a signal, panics unless that is how it ended and the command says so and tells no end, and gives all that was printed.
    pub fn ended_by(self, (name, number): (&str, i32)) -> String {
        let (tried, end) = (self.tried, broken_off(self.task));
        self.signal_program(name);
        let (status, printed, said) = self.end();
        match tried {
            Tried::Program => assert_eq!((status.signal(), &said[..]), (Some(number), "")),
            Tried::Command => {
                let why = format!("the program ended with status {}", 128 + number);
                assert!(said.ends_with(&format!("{end}: {why}\n")), "{said}");
                let told = ["records", "done"].map(|word| said.contains(word));
                assert_eq!(told, [false, false], "{said}");
                assert_eq!(status.code(), Some(2), "{said}");
            }
        }
        printed
    }

    /// Closes the input, panics unless the run then ends as a whole one on all that was fed does, and gives all that it printed.
    pub fn close(mut self) -> String {
        let (tried, task, fed) = (self.tried, self.task, take(&mut self.fed));
        let (status, printed, said) = self.end();
        ends_whole(tried, task, status, &said, &fed);
        printed
    }

    /// Does what closing does, but leaves the input open until the end has come by itself.
    pub fn ended_by_itself(mut self) -> String {
        let open = self.input.take();
        let printed = self.close();
        drop(open);
        printed
    }

    /// Closes the input and gives the status, all that was printed, and all that was said on standard error.
    pub fn end(mut self) -> (ExitStatus, String, String) {
        self.input = None;
        let status = ended(&mut self.child).expect("it ends");
        let printed = self.printed(usize::MAX);
        let mut said = Vec::new();
        while let Ok(piece) = self.errors.recv_timeout(LIMIT) {
            said.extend(piece);
        }
        (status, printed, String::from_utf8_lossy(&said).into_owned())
    }

    /// Gives what has arrived.
    fn so_far(&self) -> String {
        String::from_utf8_lossy(&self.printed).into_owned()
    }
}

impl Drop for Session {
    /// Leaves nothing behind, however the test ends.
    fn drop(&mut self) {
        let _ = self.child.kill();
        let _ = self.child.wait();
    }
}

/// Gives a process that this one has started, if there is any.
fn child_of(process: &str) -> Option<String> {
    let entries = read_dir("/proc").expect("the processes are listed");
    entries.flatten().find_map(|entry| {
        let stat = read_to_string(entry.path().join("stat")).ok()?;
        let (number, rest) = stat.split_once(' ')?;
        // A name in brackets comes first, and may hold brackets and blanks; the parent is the second word behind it.
        let parent = rest.rsplit_once(')')?.1.split_whitespace().nth(1)?;
        (parent == process).then(|| number.to_string())
    })
}

/// Sends a process a signal.
fn send(name: &str, process: &str) {
    let kill = Command::new("kill").args(["-s", name, process]).status();
    assert!(kill.expect("kill starts").success(), "{name} can be sent");
}

/// Gives a place at which the bytes of a pipe, if there is one, arrive as they come.
fn pieces(pipe: Option<impl Read + Send + 'static>) -> Receiver<Vec<u8>> {
    let (sender, receiver) = channel();
    if let Some(mut pipe) = pipe {
        spawn(move || {
            let mut room = [0; 4096];
            while let Ok(count @ 1..) = pipe.read(&mut room) {
                if sender.send(room[..count].to_vec()).is_err() {
                    break;
                }
            }
        });
    }
    receiver
}
