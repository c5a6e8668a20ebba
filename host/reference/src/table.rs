//! The table, field for field as document 01 has it, so that a damaged one can be written down too.

pub const PROCESSES: usize = 64;
pub const NAMESPACES: usize = 48;
pub const LEVELS: usize = 33;
pub const DEEPEST: u8 = LEVELS as u8 - 1;
pub const MAX_PID: u16 = 32_767;

/// "None" in a field that holds a slot.
pub const NONE: u8 = 255;

#[derive(Clone, Copy, PartialEq, Eq, Debug)]
pub enum End {
    Exited(u8),
    Signaled(u8),
}

#[derive(Clone, Copy, PartialEq, Eq, Debug)]
pub enum State {
    Running,
    Stopped,
    Ended(End),
}

#[derive(Clone, Copy, PartialEq, Eq, Debug)]
pub struct Process {
    pub own: u8,
    pub children: u8,
    pub parent: u8,
    pub state: State,
    pub handled: u32,
    pub pending: u32,
    pub pids: [u16; LEVELS],
}

impl Process {
    pub const EMPTY: Process =
        Process { own: 0, children: 0, parent: 0, state: State::Running, handled: 0, pending: 0, pids: [0; LEVELS] };

    pub fn is_taken(&self) -> bool {
        self.pids[0] != 0
    }

    /// Its number at a level, or 0.
    pub fn pid(&self, level: usize) -> u16 {
        self.pids.get(level).copied().unwrap_or(0)
    }

    pub fn has_ended(&self) -> bool {
        matches!(self.state, State::Ended(_))
    }

    /// An ended process keeps its numbers and its parent, and loses the rest.
    pub fn end(&mut self, how: End) {
        *self = Process {
            own: self.own,
            children: NONE,
            parent: self.parent,
            state: State::Ended(how),
            pids: self.pids,
            ..Process::EMPTY
        };
    }
}

#[derive(Clone, Copy, PartialEq, Eq, Debug)]
pub enum Life {
    Unborn,
    Alive(u8),
    Dead,
}

#[derive(Clone, Copy, PartialEq, Eq, Debug)]
pub struct Namespace {
    pub parent: u8,
    pub level: u8,
    pub last: u16,
    pub life: Life,
}

impl Namespace {
    pub const EMPTY: Namespace = Namespace { parent: 0, level: 0, last: 0, life: Life::Unborn };
}

#[derive(Clone, PartialEq, Eq, Debug)]
pub struct Table {
    pub processes: [Process; PROCESSES],
    pub namespaces: [Namespace; NAMESPACES],
}

impl Table {
    /// Nobody and nothing: all bytes of it are 0.
    pub const EMPTY: Table =
        Table { processes: [Process::EMPTY; PROCESSES], namespaces: [Namespace::EMPTY; NAMESPACES] };

    /// The root init alone, running, children's namespace the root, last number 1.
    pub fn fresh() -> Table {
        let mut t = Table::EMPTY;
        t.processes[0].parent = NONE;
        t.processes[0].pids[0] = 1;
        t.namespaces[0] = Namespace { parent: NONE, level: 0, last: 1, life: Life::Alive(0) };
        t
    }

    /// The process at a slot, if there is one.
    pub fn process(&self, slot: u8) -> Option<&Process> {
        self.processes.get(slot as usize).filter(|p| p.is_taken())
    }

    /// The namespace at a slot, if there is one: the root's slot, or one with a level.
    pub fn namespace(&self, slot: u8) -> Option<&Namespace> {
        self.namespaces.get(slot as usize).filter(|n| slot == 0 || n.level != 0)
    }

    /// All processes, ended ones too, with their slots.
    pub fn each_process(&self) -> impl Iterator<Item = (u8, &Process)> {
        self.processes.iter().enumerate().filter(|(_, p)| p.is_taken()).map(|(i, p)| (i as u8, p))
    }

    /// All namespaces with their slots.
    pub fn each_namespace(&self) -> impl Iterator<Item = (u8, &Namespace)> {
        self.namespaces.iter().enumerate().filter(|(i, n)| *i == 0 || n.level != 0).map(|(i, n)| (i as u8, n))
    }

    /// Whether namespace a is b or lies below it. Safe on any table: at most as many steps as a's level says.
    pub fn below(&self, a: u8, b: u8) -> bool {
        let mut at = a;
        for _ in 0..self.namespaces.get(a as usize).map_or(0, |n| n.level) {
            if at == b {
                return true;
            }
            at = self.namespaces.get(at as usize).map_or(0, |n| n.parent);
        }
        at == b
    }

    /// Whether some process has the namespace as own or for its children, or it has a child, or it is the root.
    pub fn is_held(&self, n: u8) -> bool {
        n == 0
            || self.each_process().any(|(_, p)| p.own == n || p.children == n)
            || self.each_namespace().any(|(m, s)| m != 0 && s.parent == n)
    }
}
