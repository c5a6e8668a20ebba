//! The ten calls, with their refusals in document 01's order.

use crate::sound::{is_sound, Check};
use crate::table::{End, Life, Namespace, Process, State, Table, DEEPEST, LEVELS, MAX_PID, NAMESPACES, PROCESSES};

#[derive(Clone, Copy, PartialEq, Eq, Debug)]
pub enum Call {
    Clone,
    CloneNew,
    Unshare,
    Setns(i32),
    Kill(i32, i32),
    Exit(i32),
    Wait,
    Getpid,
    Getppid,
    Handle(i32, bool),
    Poll,
}

#[derive(Clone, Copy, PartialEq, Eq, Debug)]
pub enum Answer {
    Number(u16),
    Reaped(u16, End),
}

/// A refusal's negative number.
pub type Refusal = i32;

const EINVAL: Refusal = -22;
const ENOSYS: Refusal = -38;
const ESRCH: Refusal = -3;
const EBUSY: Refusal = -16;
const ECHILD: Refusal = -10;
const ENOSPC: Refusal = -28;
const ENOMEM: Refusal = -12;
const EAGAIN: Refusal = -11;
pub const UNSOUND: Refusal = -1000;
const NOT_RUNNING: Refusal = -1001;
/// A host's request has a number that no call has.
pub const NO_CALL: Refusal = -1002;

const SIGKILL: u8 = 9;
const SIGCONT: u8 = 18;
const SIGSTOP: u8 = 19;

enum Default {
    Nothing,
    Resume,
    Stop,
    End,
}

fn default_of(signal: u8) -> Default {
    match signal {
        17 | 23 | 28 => Default::Nothing,
        SIGCONT => Default::Resume,
        SIGSTOP | 20 | 21 | 22 => Default::Stop,
        _ => Default::End,
    }
}

impl Table {
    /// One call by the process at a slot.
    pub fn step(&mut self, caller: u8, call: Call) -> Result<Answer, Refusal> {
        self.step_after(is_sound, caller, call)
    }

    /// The same, with the check of the table that is given.
    pub fn step_after(&mut self, check: Check, caller: u8, call: Call) -> Result<Answer, Refusal> {
        if !check(self) {
            return Err(UNSOUND);
        }
        match self.process(caller) {
            Some(p) if p.state == State::Running => self.serve(caller, call),
            _ => Err(NOT_RUNNING),
        }
    }

    fn serve(&mut self, c: u8, call: Call) -> Result<Answer, Refusal> {
        match call {
            Call::Clone => self.clone_plain(c).map(Answer::Number),
            Call::CloneNew => self.clone_new(c).map(Answer::Number),
            Call::Unshare => self.unshare(c).map(Answer::Number),
            Call::Setns(n) => self.setns(c, n).map(Answer::Number),
            Call::Kill(n, s) => self.kill(c, n, s).map(Answer::Number),
            Call::Exit(s) => self.exit(c, s).map(Answer::Number),
            Call::Wait => self.wait(c),
            Call::Getpid => Ok(Answer::Number(self.number_of(c, c))),
            Call::Getppid => Ok(Answer::Number(self.parent_number(c))),
            Call::Handle(s, on) => self.handle(c, s, on).map(Answer::Number),
            Call::Poll => Ok(Answer::Number(self.poll(c))),
        }
    }

    // ---- numbers

    fn own_level(&self, c: u8) -> usize {
        self.namespaces[self.processes[c as usize].own as usize].level as usize
    }

    /// The number of a process as the caller sees it.
    fn number_of(&self, c: u8, i: u8) -> u16 {
        self.processes[i as usize].pids[self.own_level(c)]
    }

    fn parent_number(&self, c: u8) -> u16 {
        let own = self.processes[c as usize].own;
        match self.process(self.processes[c as usize].parent) {
            Some(parent) if self.below(parent.own, own) => parent.pids[self.own_level(c)],
            _ => 0,
        }
    }

    /// Those in the subtree of a namespace, with their numbers there.
    pub fn seen_from(&self, n: u8) -> impl Iterator<Item = (u8, u16)> + '_ {
        let level = self.namespaces[n as usize].level as usize;
        self.each_process().filter(move |(_, p)| self.below(p.own, n)).map(move |(i, p)| (i, p.pid(level)))
    }

    /// The process of a number in the caller's namespace.
    fn find(&self, c: u8, n: i32) -> Option<u8> {
        let pid = u16::try_from(n).ok().filter(|&pid| pid != 0)?;
        self.seen_from(self.processes[c as usize].own).find(|&(_, k)| k == pid).map(|(i, _)| i)
    }

    /// The lowest free number above the last one, else the lowest free from 300. Safe on any table.
    pub fn next_number(&self, n: u8) -> u16 {
        let last = self.namespaces[n as usize].last.min(MAX_PID);
        let held: Vec<u16> = self.seen_from(n).map(|(_, pid)| pid).collect();
        (last + 1..=MAX_PID)
            .chain(300..=MAX_PID)
            .find(|pid| !held.contains(pid))
            .expect("64 processes cannot hold every number")
    }

    /// Gives that number, which becomes the last.
    fn take_number(&mut self, n: u8) -> u16 {
        let pid = self.next_number(n);
        self.namespaces[n as usize].last = pid;
        pid
    }

    // ---- room

    fn free_process(&self) -> Result<u8, Refusal> {
        (0..PROCESSES as u8).find(|&i| self.process(i).is_none()).ok_or(EAGAIN)
    }

    fn free_namespace(&self) -> Result<u8, Refusal> {
        (0..NAMESPACES as u8).find(|&n| self.namespace(n).is_none()).ok_or(EAGAIN)
    }

    /// Level by level from the deepest, so that one let go lets its parent go.
    fn free_unheld(&mut self) {
        for level in (1..LEVELS as u8).rev() {
            for n in 1..NAMESPACES as u8 {
                if self.namespaces[n as usize].level == level && !self.is_held(n) {
                    self.namespaces[n as usize] = Namespace::EMPTY;
                }
            }
        }
    }

    // ---- clone, unshare, setns

    fn birth(&mut self, c: u8, slot: u8, n: u8) -> u16 {
        let mut pids = [0; LEVELS];
        let mut at = n;
        for level in (0..=self.namespaces[n as usize].level as usize).rev() {
            pids[level] = self.take_number(at);
            at = self.namespaces[at as usize].parent;
        }
        if self.namespaces[n as usize].life == Life::Unborn {
            self.namespaces[n as usize].life = Life::Alive(slot);
        }
        self.processes[slot as usize] = Process { own: n, children: n, parent: c, pids, ..Process::EMPTY };
        pids[self.own_level(c)]
    }

    fn clone_plain(&mut self, c: u8) -> Result<u16, Refusal> {
        let n = self.processes[c as usize].children;
        if self.namespaces[n as usize].life == Life::Dead {
            return Err(ENOMEM);
        }
        let slot = self.free_process()?;
        Ok(self.birth(c, slot, n))
    }

    /// An unborn namespace below the caller's own.
    fn put_namespace(&mut self, c: u8, n: u8) {
        let parent = self.processes[c as usize].own;
        let level = self.namespaces[parent as usize].level + 1;
        self.namespaces[n as usize] = Namespace { parent, level, last: 0, life: Life::Unborn };
    }

    /// Whether the children's namespace is not the caller's own (W-203).
    fn is_elsewhere(&self, c: u8) -> bool {
        let p = &self.processes[c as usize];
        p.children != p.own
    }

    fn clone_new(&mut self, c: u8) -> Result<u16, Refusal> {
        if self.is_elsewhere(c) {
            return Err(EINVAL);
        }
        if self.own_level(c) == DEEPEST as usize {
            return Err(ENOSPC);
        }
        let slot = self.free_process()?;
        let n = self.free_namespace()?;
        self.put_namespace(c, n);
        Ok(self.birth(c, slot, n))
    }

    fn unshare(&mut self, c: u8) -> Result<u16, Refusal> {
        if self.is_elsewhere(c) {
            return Err(EINVAL);
        }
        if self.own_level(c) == DEEPEST as usize {
            return Err(ENOSPC);
        }
        let n = self.free_namespace()?;
        self.put_namespace(c, n);
        self.processes[c as usize].children = n;
        self.free_unheld();
        Ok(0)
    }

    fn setns(&mut self, c: u8, n: i32) -> Result<u16, Refusal> {
        let i = self.find(c, n).filter(|&i| !self.processes[i as usize].has_ended()).ok_or(ESRCH)?;
        self.processes[c as usize].children = self.processes[i as usize].own;
        self.free_unheld();
        Ok(0)
    }

    // ---- ends

    fn is_init(&self, i: u8) -> bool {
        self.namespaces[self.processes[i as usize].own as usize].life == Life::Alive(i)
    }

    fn end(&mut self, i: u8, how: End) {
        let own = self.processes[i as usize].own;
        if self.is_init(i) {
            self.processes[i as usize].end(how);
            self.end_subtree(own);
        } else {
            self.processes[i as usize].end(how);
            self.hand_over(i, own);
        }
    }

    /// All children of a process that ended go to the init of its namespace.
    fn hand_over(&mut self, i: u8, own: u8) {
        let Life::Alive(init) = self.namespaces[own as usize].life else { return };
        for p in self.processes.iter_mut().filter(|p| p.is_taken() && p.parent == i) {
            p.parent = init;
        }
    }

    /// The init of a namespace has ended: all in the subtree end by signal 9, and those with a parent inside are
    /// removed.
    fn end_subtree(&mut self, top: u8) {
        let inside: Vec<u8> = self.seen_from(top).map(|(i, _)| i).collect();
        let dead: Vec<u8> = self.each_namespace().map(|(n, _)| n).filter(|&n| self.below(n, top)).collect();
        for &n in &dead {
            self.namespaces[n as usize].life = Life::Dead;
        }
        for &i in &inside {
            if !self.processes[i as usize].has_ended() {
                self.processes[i as usize].end(End::Signaled(SIGKILL));
            }
        }
        let swept: Vec<u8> =
            inside.iter().copied().filter(|&i| inside.contains(&self.processes[i as usize].parent)).collect();
        for i in swept {
            self.processes[i as usize] = Process::EMPTY;
        }
    }

    fn exit(&mut self, c: u8, status: i32) -> Result<u16, Refusal> {
        if c == 0 {
            return Err(EBUSY);
        }
        self.end(c, End::Exited(status.rem_euclid(256) as u8));
        self.free_unheld();
        Ok(0)
    }

    fn wait(&mut self, c: u8) -> Result<Answer, Refusal> {
        let children: Vec<u8> = self.each_process().filter(|(_, p)| p.parent == c).map(|(i, _)| i).collect();
        if children.is_empty() {
            return Err(ECHILD);
        }
        let ended = children
            .into_iter()
            .filter_map(|i| match self.processes[i as usize].state {
                State::Ended(how) => Some((self.number_of(c, i), i, how)),
                _ => None,
            })
            .min_by_key(|&(pid, _, _)| pid);
        let Some((pid, i, how)) = ended else { return Ok(Answer::Number(0)) };
        self.processes[i as usize] = Process::EMPTY;
        self.free_unheld();
        Ok(Answer::Reaped(pid, how))
    }

    // ---- signals

    fn handle(&mut self, c: u8, s: i32, on: bool) -> Result<u16, Refusal> {
        if !(1..=31).contains(&s) || s == SIGKILL.into() || s == SIGSTOP.into() {
            return Err(EINVAL);
        }
        let p = &mut self.processes[c as usize];
        if on {
            p.handled |= 1 << s;
        } else {
            p.handled &= !(1 << s);
            p.pending &= !(1 << s);
        }
        Ok(0)
    }

    fn poll(&mut self, c: u8) -> u16 {
        let p = &mut self.processes[c as usize];
        if p.pending == 0 {
            return 0;
        }
        let s = p.pending.trailing_zeros();
        p.pending &= !(1 << s);
        s as u16
    }

    fn kill(&mut self, c: u8, n: i32, s: i32) -> Result<u16, Refusal> {
        let signal = u8::try_from(s).ok().filter(|s| *s < 32).ok_or(EINVAL)?;
        if n == 0 || n < -1 {
            return Err(ENOSYS);
        }
        let own = self.processes[c as usize].own;
        let targets: Vec<u8> = if n == -1 {
            let mut others: Vec<(u16, u8)> =
                self.seen_from(own).filter(|&(i, pid)| i != c && pid != 1).map(|(i, pid)| (pid, i)).collect();
            others.sort_unstable();
            others.into_iter().map(|(_, i)| i).collect()
        } else {
            self.find(c, n).into_iter().collect()
        };
        if targets.is_empty() {
            return Err(ESRCH);
        }
        for i in targets {
            self.deliver(own, i, signal);
        }
        self.free_unheld();
        Ok(0)
    }

    fn deliver(&mut self, from: u8, i: u8, s: u8) {
        let p = self.processes[i as usize];
        if s == 0 || !p.is_taken() || p.has_ended() {
            return;
        }
        let is_init = self.is_init(i);
        if s == SIGKILL || s == SIGSTOP {
            if !is_init || p.own != from {
                self.do_default(i, s);
            }
            return;
        }
        if s == SIGCONT {
            self.processes[i as usize].state = State::Running;
        }
        if p.handled >> s & 1 == 1 {
            self.processes[i as usize].pending |= 1 << s;
        } else if !is_init {
            self.do_default(i, s);
        }
    }

    fn do_default(&mut self, i: u8, s: u8) {
        match default_of(s) {
            Default::Nothing => {}
            Default::Resume => self.processes[i as usize].state = State::Running,
            Default::Stop => self.processes[i as usize].state = State::Stopped,
            Default::End => self.end(i, End::Signaled(s)),
        }
    }
}
