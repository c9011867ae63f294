//! Reading a rule.

/// A command with the entries that it leads to.
#[derive(Clone, Copy, Debug, PartialEq, Eq)]
pub enum Command {
    True,
    False,
    Present(u8),
    Absent(u8),
    /// A variable, with the entry of its fixpoint.
    Variable(usize),
    Or(usize, usize),
    And(usize, usize),
    Next(usize),
    Least(usize),
    Greatest(usize),
}

/// A refusal of reading: its number, the byte's place, and with 8 a second place.
#[derive(Clone, Copy, Debug, PartialEq, Eq)]
pub struct Unreadable {
    pub number: u8,
    pub place: usize,
    /// With 8 alone, where the variable's fixpoint begins.
    pub fixpoint: Option<usize>,
}

fn refuse<T>(number: u8, place: usize) -> Result<T, Unreadable> {
    Err(Unreadable { number, place, fixpoint: None })
}

/// An enclosing fixpoint: its entry, its byte's place, and whether a next stands between.
#[derive(Clone, Copy)]
struct Enclosing {
    entry: usize,
    place: usize,
    guarded: bool,
}

/// The enclosing fixpoints, innermost last.
type Scope = Vec<Enclosing>;

/// What is still to be read: one rule in its scope; `parent` is the entry whose second operand it is, which waits for its number.
struct Wanted {
    scope: Scope,
    parent: Option<usize>,
}

struct Reader<'a> {
    bytes: &'a [u8],
    at: usize,
    entries: Vec<Command>,
    ors: usize,
    nexts: usize,
    fixpoints: usize,
    wanted: Vec<Wanted>,
}

/// Reads a rule into its entries.
pub fn read(bytes: &[u8]) -> Result<Vec<Command>, Unreadable> {
    let whole = Wanted { scope: Vec::new(), parent: None };
    let mut reader = Reader { bytes, at: 0, entries: Vec::new(), ors: 0, nexts: 0, fixpoints: 0, wanted: vec![whole] };
    while let Some(Wanted { scope, parent }) = reader.wanted.pop() {
        let byte = reader.opcode()?;
        reader.settle(parent);
        let command = reader.command(byte, scope)?;
        reader.entries.push(command);
    }
    if reader.at < bytes.len() {
        return refuse(9, reader.at);
    }
    Ok(reader.entries)
}

impl Reader<'_> {
    /// The questions 1 to 4; the byte is then passed.
    fn opcode(&mut self) -> Result<u8, Unreadable> {
        let Some(&byte) = self.bytes.get(self.at) else {
            return refuse(1, self.bytes.len());
        };
        if !(1..=10).contains(&byte) {
            return refuse(2, self.at);
        }
        if self.entries.len() == 48 {
            return refuse(3, self.at);
        }
        let (count, limit) = match byte {
            6 => (&mut self.ors, 12),
            8 => (&mut self.nexts, 12),
            9 | 10 => (&mut self.fixpoints, 7),
            _ => (&mut 0, 1),
        };
        *count += 1;
        if *count > limit {
            return refuse(4, self.at);
        }
        self.at += 1;
        Ok(byte)
    }

    /// The entry that comes now is the second operand of its parent.
    fn settle(&mut self, parent: Option<usize>) {
        let me = self.entries.len();
        if let Some(Command::Or(_, right) | Command::And(_, right)) = parent.map(|p| &mut self.entries[p]) {
            *right = me;
        }
    }

    /// The operand byte of 03, 04 and 05: question 5.
    fn operand(&mut self) -> Result<u8, Unreadable> {
        let Some(&operand) = self.bytes.get(self.at) else {
            return refuse(5, self.bytes.len());
        };
        self.at += 1;
        Ok(operand)
    }

    fn command(&mut self, byte: u8, scope: Scope) -> Result<Command, Unreadable> {
        let me = self.entries.len();
        Ok(match byte {
            1 => Command::True,
            2 => Command::False,
            3 => Command::Present(self.signal()?),
            4 => Command::Absent(self.signal()?),
            5 => Command::Variable(self.binder(&scope)?),
            6 => self.pair(scope, Command::Or(me + 1, 0)),
            7 => self.pair(scope, Command::And(me + 1, 0)),
            8 => self.single(scope.into_iter().map(|f| Enclosing { guarded: true, ..f }).collect(), Command::Next(me + 1)),
            9 => self.fixpoint(scope, Command::Least(me + 1)),
            _ => self.fixpoint(scope, Command::Greatest(me + 1)),
        })
    }

    /// Question 6.
    fn signal(&mut self) -> Result<u8, Unreadable> {
        match self.operand()? {
            signal @ 0..=15 => Ok(signal),
            _ => refuse(6, self.at - 1),
        }
    }

    /// Questions 7 and 8.
    fn binder(&mut self, scope: &Scope) -> Result<usize, Unreadable> {
        let depth = self.operand()? as usize;
        match scope.iter().rev().nth(depth) {
            None => refuse(7, self.at - 1),
            Some(f) if !f.guarded => Err(Unreadable { number: 8, place: self.at - 1, fixpoint: Some(f.place) }),
            Some(f) => Ok(f.entry),
        }
    }

    /// A command whose two operands are read next, left before right.
    fn pair(&mut self, scope: Scope, command: Command) -> Command {
        self.wanted.push(Wanted { scope: scope.clone(), parent: Some(self.entries.len()) });
        self.single(scope, command)
    }

    /// A fixpoint, whose byte has just been passed; its operand is read next.
    fn fixpoint(&mut self, mut scope: Scope, command: Command) -> Command {
        scope.push(Enclosing { entry: self.entries.len(), place: self.at - 1, guarded: false });
        self.single(scope, command)
    }

    /// A command whose operand is read next.
    fn single(&mut self, scope: Scope, command: Command) -> Command {
        self.wanted.push(Wanted { scope, parent: None });
        command
    }
}

/// Of each entry the one after its last.
pub fn ends(entries: &[Command]) -> Vec<usize> {
    let mut ends = vec![0; entries.len()];
    for e in (0..entries.len()).rev() {
        ends[e] = match entries[e] {
            Command::Or(_, right) | Command::And(_, right) => ends[right],
            Command::Next(f) | Command::Least(f) | Command::Greatest(f) => ends[f],
            _ => e + 1,
        };
    }
    ends
}
