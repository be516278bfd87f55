//! The server: a clerk for each control connection, a worker for each ingress connection, and the worker of the link.

use crate::arguments::Arguments;
use crate::connections::{Connections, Kind, Source, read_away};
use crate::control::{self, How};
use crate::journal::{AuditFile, Journal};
use crate::link::Link;
use crate::locked::{CAPACITY, LinkEnd, Locked, Port, VERSION, hold, run_link};
use crate::output::Output;
use crate::records::{self, Offer, Why};
use std::collections::BTreeSet;
use std::fs::File;
use std::io::{self, Write};
use std::net::{Shutdown, TcpListener, TcpStream};
use std::os::fd::{AsFd, OwnedFd};
use std::sync::atomic::{AtomicBool, Ordering};
use std::sync::mpsc::{SyncSender, sync_channel};
use std::sync::{Arc, Mutex};
use std::thread::{Builder, Scope, ScopedJoinHandle, Thread, scope};

/// A fault in a run, in the order in which faults are reported.
#[derive(Clone, Copy, PartialEq, Eq, PartialOrd, Ord)]
enum Fault {
    Accept,
    Thread,
    Uplink,
    Life,
    Unsent,
    LeftOver,
    Mismatch,
    Audit,
    Output,
}

impl Fault {
    fn text(self, audit: &str) -> String {
        match self {
            Fault::Accept => "cannot accept a connection".to_string(),
            Fault::Thread => "cannot start a worker".to_string(),
            Fault::Uplink => "the uplink failed".to_string(),
            Fault::Life => "the life is spent".to_string(),
            Fault::Unsent => "packets are left over".to_string(),
            Fault::LeftOver => "offers are left over".to_string(),
            Fault::Mismatch => "the books do not agree".to_string(),
            Fault::Audit => format!("cannot write the audit {audit}"),
            Fault::Output => "cannot write the output".to_string(),
        }
    }
}

/// What the threads of a run share.
struct Server {
    port: Port<TcpStream>,
    connections: Arc<Connections>,
    stop: AtomicBool,
    /// The worker of the link, which is woken where there may be something to do.
    link: Mutex<Option<Thread>>,
    faults: Mutex<BTreeSet<Fault>>,
}

/// What the threads of the connections leave: how many commands were events, and what each worker queued.
#[derive(Default)]
struct Books {
    commands: u64,
    tallies: Vec<u64>,
}

type Clerk<'scope> = ScopedJoinHandle<'scope, (How, u64)>;
type Worker<'scope> = ScopedJoinHandle<'scope, (Why, u64)>;

impl Server {
    fn fault(&self, fault: Fault) {
        hold(&self.faults).insert(fault);
    }

    fn waker(&self) -> impl Fn() + use<> {
        let link = hold(&self.link).clone();
        move || {
            if let Some(link) = &link {
                link.unpark();
            }
        }
    }

    /// The link's worker, and what happens where it ends.
    fn link_worker(&self) -> LinkEnd {
        let end = run_link(&self.port, &self.stop, &self.connections.writes);
        self.end_link();
        end
    }

    /// No more offers are taken, and nobody waits for that.
    fn end_link(&self) {
        hold(&self.port).queue = None;
        self.connections.end_link();
    }

    fn clerk(&self, number: usize, stream: Arc<TcpStream>) -> (How, u64) {
        let source = Source::new(&stream, &self.connections);
        let done = match stream.try_clone() {
            Ok(output) => {
                let output = Output::new(File::from(OwnedFd::from(output)));
                control::attend(source, output, &self.port, self.waker())
            }
            Err(_) => (How::WriteFault, 0),
        };
        self.connections.remove(Kind::Control, number);
        self.connections.tell(format_args!("control {number}: ended, {:?}, {} commands", done.0, done.1));
        done
    }

    fn worker(&self, number: usize, stream: Arc<TcpStream>, queue: SyncSender<Offer>) -> (Why, u64) {
        let source = Source::new(&stream, &self.connections);
        let done = records::work(number - 1, source, &queue, self.waker());
        self.connections.remove(Kind::Ingress, number);
        self.connections.tell(format_args!("ingress {number}: ended, {:?}, {} packets", done.0, done.1));
        done
    }

    /// Accepts a connection, and starts a thread for it. Where one of them fails, the end begins.
    fn accept<'scope, T>(
        &self,
        listener: &TcpListener,
        kind: Kind,
        number: usize,
        start: impl FnOnce(Arc<TcpStream>) -> io::Result<ScopedJoinHandle<'scope, T>>,
    ) -> Option<ScopedJoinHandle<'scope, T>> {
        let accepted = listener.accept().map(|(stream, address)| {
            let _ = stream.set_nodelay(true);
            (Arc::new(stream), address)
        });
        let (stream, address) = match accepted {
            Ok(accepted) if !self.connections.is_ending() => accepted,
            Ok(_) => return None,
            Err(_) => {
                if !self.connections.is_ending() {
                    self.fault(Fault::Accept);
                    self.connections.end();
                }
                return None;
            }
        };
        let word = if kind == Kind::Control { "control" } else { "ingress" };
        self.connections.tell(format_args!("{word} {number}: connected from {address}"));
        self.connections.add(kind, number, &stream);
        let started = start(stream);
        if started.is_err() {
            self.connections.remove(kind, number);
            self.fault(Fault::Thread);
            self.connections.end();
        }
        started.ok()
    }

    /// Accepts the control connections and then the ingress connections.
    fn accept_all<'scope>(
        &'scope self,
        scope: &'scope Scope<'scope, '_>,
        [ingress, control]: [&TcpListener; 2],
        arguments: &Arguments,
        queue: SyncSender<Offer>,
    ) -> (Vec<Clerk<'scope>>, Vec<Worker<'scope>>) {
        let (mut clerks, mut workers) = (Vec::new(), Vec::new());
        for number in 1..=arguments.clerks {
            let start = |stream| Builder::new().spawn_scoped(scope, move || self.clerk(number, stream));
            let Some(clerk) = self.accept(control, Kind::Control, number, start) else { return (clerks, workers) };
            clerks.push(clerk);
        }
        for number in 1..=arguments.workers {
            let queue = queue.clone();
            let start = |stream| Builder::new().spawn_scoped(scope, move || self.worker(number, stream, queue));
            let Some(worker) = self.accept(ingress, Kind::Ingress, number, start) else { return (clerks, workers) };
            workers.push(worker);
        }
        (clerks, workers)
    }

    /// Runs all threads, and answers what they leave.
    fn run(&self, listeners: [&TcpListener; 2], arguments: &Arguments, queue: SyncSender<Offer>) -> Books {
        scope(|scope| {
            let link = Builder::new().spawn_scoped(scope, || self.link_worker()).ok();
            match &link {
                Some(link) => *hold(&self.link) = Some(link.thread().clone()),
                None => {
                    self.fault(Fault::Thread);
                    self.end_link();
                    self.connections.end();
                }
            }
            let (clerks, workers) = self.accept_all(scope, listeners, arguments, queue);
            let tallies = workers.into_iter().map(|worker| worker.join().map_or(0, |done| done.1)).collect();
            let commands = clerks.into_iter().map(|clerk| clerk.join().map_or(0, |done| done.1)).sum();
            self.stop.store(true, Ordering::Release);
            self.connections.tell(format_args!("the stop is set"));
            self.waker()();
            if link.is_some_and(|link| link.join().is_ok_and(|end| end == LinkEnd::Spent)) {
                self.fault(Fault::Life);
            }
            Books { commands, tallies }
        })
    }

    /// Whether the threads did what the journal has.
    fn settle(&self, locked: &Locked<TcpStream>, books: &Books) {
        if locked.link.is_broken() {
            self.fault(Fault::Uplink);
        }
        if locked.link.is_unsent() {
            self.fault(Fault::Unsent);
        } else if books.commands != locked.journal.commands {
            self.fault(Fault::Mismatch);
        } else if books.tallies.iter().zip(&locked.popped).any(|(queued, popped)| queued > popped) {
            self.fault(Fault::LeftOver);
        }
    }

    /// Prints the counts, writes the audit and the report, and lets the uplink's peer have all that was sent.
    fn finish(&self, locked: &mut Locked<TcpStream>, file: AuditFile) {
        let _ = locked.uplink.shutdown(Shutdown::Write);
        let Journal { commands, arrivals, .. } = locked.journal;
        let events = locked.journal.len() as u64;
        let turns = events - commands - arrivals;
        self.connections.tell(format_args!("{commands} commands, {arrivals} arrivals, {turns} turns"));
        if file.write(&locked.journal).is_err() {
            self.fault(Fault::Audit);
        }
        if locked.link.report().is_err() {
            self.fault(Fault::Output);
        }
        read_away(&mut locked.uplink);
    }
}

/// Makes what a run needs, in the order in which its faults are told.
fn prepare(arguments: &Arguments) -> Result<(Journal, AuditFile, [TcpListener; 2], TcpStream), String> {
    let Arguments { ingress, control, uplink, audit, life, .. } = arguments;
    let journal = Journal::new(VERSION, *life).ok_or("out of memory")?;
    let file = AuditFile::open(audit).map_err(|_| Fault::Audit.text(audit))?;
    let listen = |address: &String| TcpListener::bind(address).map_err(|_| format!("cannot listen on {address}"));
    let listeners = [listen(ingress)?, listen(control)?];
    let stream = TcpStream::connect(uplink).map_err(|_| format!("cannot connect to {uplink}"))?;
    Ok((journal, file, listeners, stream))
}

fn try_serve(arguments: &Arguments) -> Result<(), String> {
    let (journal, file, listeners, uplink) = prepare(arguments)?;
    let [ingress, control] = [&listeners[0], &listeners[1]];
    let memory = |_| "out of memory".to_string();
    uplink.set_nodelay(true).map_err(memory)?;
    let connections = Connections::new([ingress, control], &uplink, arguments.verbose).map_err(memory)?;
    for (word, listener) in [("ingress", ingress), ("control", control)] {
        let address = listener.local_addr().map_err(memory)?;
        connections.tell(format_args!("listening for {word} on {address}"));
    }
    if arguments.until_eof {
        connections.end_at_eof().map_err(|_| Fault::Thread.text(""))?;
    }
    let output = Output::new(File::from(io::stdout().as_fd().try_clone_to_owned().map_err(memory)?));
    let (sender, receiver) = sync_channel(CAPACITY);
    let link = Link::new(VERSION, arguments.life, output);
    let popped = vec![0; arguments.workers];
    let server = Server {
        port: Mutex::new(Locked { link, journal, uplink, queue: Some(receiver), popped }),
        connections,
        stop: AtomicBool::new(false),
        link: Mutex::new(None),
        faults: Mutex::new(BTreeSet::new()),
    };
    let books = server.run([ingress, control], arguments, sender);
    let mut locked = hold(&server.port);
    server.settle(&locked, &books);
    server.finish(&mut locked, file);
    let faults = hold(&server.faults);
    faults.first().map_or(Ok(()), |fault| Err(fault.text(&arguments.audit)))
}

/// Runs the server, and answers its status.
pub fn serve(arguments: &Arguments) -> u8 {
    let Err(text) = try_serve(arguments) else { return 0 };
    let _ = io::stderr().write_all(format!("stridelink: {text}\n").as_bytes());
    1
}
