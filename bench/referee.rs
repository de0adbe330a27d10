//! A referee in plain Rust, to measure the proved one by. It reads a transcript from standard input and prints its
//! lines; docs/FORMAT.md and docs/RULES.md say what they are.

use std::io::{self, BufWriter, Read, Write};

const MAX_FILE: usize = 65_535;
const MAX_SIZE: usize = 4_096;
const MAX_CEILING: u64 = 4_194_303;
const MAX_WIDTH: usize = 64;
const MAX_TEXT: usize = 80;

fn main() -> io::Result<()> {
    let mut data = Vec::new();
    io::stdin().lock().take(MAX_FILE as u64 + 1).read_to_end(&mut data)?;
    let mut out = BufWriter::new(io::stdout().lock());
    report(&data, &mut out)?;
    out.flush()
}

// Nimbers

struct Nimbers {
    /// The product of a and b, both below 16, is at 16a + b.
    below_16: [u32; 256],
}

/// The smallest number whose bit is not set.
fn smallest_missing(seen: u64) -> u32 {
    (!seen).trailing_zeros()
}

/// The high and the low part of a number.
fn split(a: u32, bits: u32) -> (u32, u32) {
    (a >> bits, a & ((1 << bits) - 1))
}

impl Nimbers {
    fn new() -> Nimbers {
        let mut table = [0; 256];
        for a in 0..16 {
            for b in 0..16 {
                let mut seen = 0;
                for lower_a in 0..a {
                    for lower_b in 0..b {
                        let sum = table[16 * lower_a + b] ^ table[16 * a + lower_b] ^ table[16 * lower_a + lower_b];
                        seen |= 1 << sum;
                    }
                }
                table[16 * a + b] = smallest_missing(seen);
            }
        }
        Nimbers { below_16: table }
    }

    fn product(&self, a: u32, b: u32) -> u32 {
        let half = match a.max(b) {
            0..16 => return self.below_16[(16 * a + b) as usize],
            16..256 => 4,
            256..65_536 => 8,
            65_536.. => 16,
        };
        let (a_high, a_low) = split(a, half);
        let (b_high, b_low) = split(b, half);
        let high = self.product(a_high, b_high);
        let low = self.product(a_low, b_low);
        let both = self.product(a_high ^ a_low, b_high ^ b_low);
        ((both ^ low) << half) ^ low ^ self.product(high, 1 << (half - 1))
    }

    /// The inverse; 0 for 0, which has none.
    fn inverse(&self, a: u32) -> u32 {
        let half = match a {
            0..2 => return a,
            2..4 => 1,
            4..16 => 2,
            16..256 => 4,
            256..65_536 => 8,
            65_536.. => 16,
        };
        let (high, low) = split(a, half);
        let norm = self.product(low, low ^ high) ^ self.product(self.product(high, high), 1 << (half - 1));
        self.product(a ^ high, self.inverse(norm))
    }
}

// Games

#[derive(Clone, Copy)]
struct Cell {
    moves: u32,
    value: u32,
}

struct Game {
    cells: Vec<Cell>,
    ceiling: u64,
    rules: Rules,
}

enum Rules {
    Row(Row),
    Mixture(Box<Game>, Box<Game>),
    Product(Box<Game>, Box<Game>),
}

enum Row {
    Twins,
    Turtles,
    Ruler,
    /// The amounts, rising.
    Take(Vec<usize>),
}

/// The two lower cells of the turtles' move that has this number among the moves of three cells.
fn turtle_pair(number: usize) -> (usize, usize) {
    let (mut a, mut b) = (number, 1);
    while a >= b {
        a -= b;
        b += 1;
    }
    (a, b)
}

impl Row {
    fn take(set: u32) -> Row {
        Row::Take((1..=32).filter(|amount| set >> (amount - 1) & 1 == 1).collect())
    }

    /// The cell c above the cells below.
    fn cell(&self, c: usize, below: &[Cell]) -> Cell {
        let n = c as u32;
        match self {
            Row::Twins => Cell { moves: n, value: n },
            Row::Turtles => {
                Cell { moves: 1 + n * (n + 1) / 2, value: 2 * n + u32::from(n.count_ones().is_multiple_of(2)) }
            }
            Row::Ruler => Cell { moves: n + 1, value: 1 << (n + 1).trailing_zeros() },
            Row::Take(amounts) => {
                let usable = amounts.iter().filter(|&&amount| amount <= c);
                let seen = usable.clone().fold(0, |seen, amount| seen | 1 << below[c - amount].value);
                Cell { moves: usable.count() as u32, value: smallest_missing(seen) }
            }
        }
    }

    fn turned(&self, c: usize, i: usize) -> Vec<usize> {
        match self {
            Row::Twins => vec![i, c],
            Row::Turtles if i == 0 => vec![c],
            Row::Turtles if i <= c => vec![i - 1, c],
            Row::Turtles => {
                let (a, b) = turtle_pair(i - c - 1);
                vec![a, b, c]
            }
            Row::Ruler => (c - i..=c).collect(),
            Row::Take(amounts) => vec![c - amounts[i], c],
        }
    }

    /// The lowest move at c with this rest.
    fn reply(&self, c: usize, rest: u32, cells: &[Cell]) -> Option<usize> {
        let value = |cell: usize| cells[cell].value;
        match self {
            Row::Twins => (0..c).find(|&i| value(i) == rest),
            Row::Turtles if rest == 0 => Some(0),
            Row::Turtles => {
                let single = (0..c).find(|&a| value(a) == rest).map(|a| a + 1);
                let mut pairs = (0..c).flat_map(|b| (0..b).map(move |a| (a, b)));
                single.or_else(|| pairs.position(|(a, b)| value(a) ^ value(b) == rest).map(|at| c + 1 + at))
            }
            Row::Ruler => {
                let mut sum = 0;
                (0..=c).find(|&i| {
                    sum ^= if i > 0 { value(c - i) } else { 0 };
                    sum == rest
                })
            }
            Row::Take(amounts) => {
                let mut usable = amounts.iter().take_while(|&&amount| amount <= c);
                usable.position(|amount| value(c - amount) == rest)
            }
        }
    }
}

impl Game {
    fn row(width: usize, row: Row) -> Game {
        let mut cells = Vec::new();
        if width <= MAX_WIDTH {
            for c in 0..width {
                cells.push(row.cell(c, &cells));
            }
        }
        let ceiling = match (&row, cells.last()) {
            (_, None) => 0,
            (Row::Take(amounts), _) => amounts.len() as u64,
            (_, Some(last)) => u64::from(last.moves),
        };
        Game { cells, ceiling, rules: Rules::Row(row) }
    }

    fn mixture(a: Game, b: Game) -> Game {
        let (mut cells, mut ceiling) = (Vec::new(), 0);
        if a.cells.len() + b.cells.len() <= MAX_SIZE {
            cells = [a.cells.as_slice(), b.cells.as_slice()].concat();
            ceiling = a.ceiling.max(b.ceiling);
        }
        Game { cells, ceiling, rules: Rules::Mixture(Box::new(a), Box::new(b)) }
    }

    fn product(a: Game, b: Game, nimbers: &Nimbers) -> Game {
        let (mut cells, mut ceiling) = (Vec::new(), 0);
        let most = a.ceiling * b.ceiling;
        if a.cells.len() * b.cells.len() <= MAX_SIZE && most <= MAX_CEILING {
            ceiling = most;
            for x in &a.cells {
                for y in &b.cells {
                    cells.push(Cell { moves: x.moves * y.moves, value: nimbers.product(x.value, y.value) });
                }
            }
        }
        Game { cells, ceiling, rules: Rules::Product(Box::new(a), Box::new(b)) }
    }

    fn pile(head: Head, nimbers: &Nimbers) -> Option<Game> {
        let (w, h) = (usize::from(head.w), usize::from(head.h));
        let twins = |width| Game::row(width, Row::Twins);
        let turtles = |width| Game::row(width, Row::Turtles);
        let ruler = |width| Game::row(width, Row::Ruler);
        let product = |a, b| Game::product(a, b, nimbers);
        match head.pile {
            1 => Some(product(twins(w), twins(h))),
            2 => Some(product(ruler(w), ruler(h))),
            3 => Some(product(turtles(w), ruler(h))),
            4 => Some(product(twins(w), Game::row(h, Row::take(head.set)))),
            5 => Some(Game::mixture(product(twins(w), twins(w)), product(ruler(h), ruler(h)))),
            6 => Some(product(Game::mixture(turtles(w), ruler(h)), twins(4))),
            _ => None,
        }
    }

    /// The cells of move i at c, which must be there.
    fn turned(&self, c: usize, i: usize) -> Vec<usize> {
        match &self.rules {
            Rules::Row(row) => row.turned(c, i),
            Rules::Mixture(a, b) => match c.checked_sub(a.cells.len()) {
                None => a.turned(c, i),
                Some(d) => b.turned(d, i).into_iter().map(|cell| a.cells.len() + cell).collect(),
            },
            Rules::Product(a, b) => {
                let width = b.cells.len();
                let (x, y) = (c / width, c % width);
                let moves = b.cells[y].moves as usize;
                let columns = b.turned(y, i % moves);
                let rows = a.turned(x, i / moves);
                rows.iter().flat_map(|row| columns.iter().map(move |column| row * width + column)).collect()
            }
        }
    }

    /// A move at c, which must be there, with this rest.
    fn reply(&self, c: usize, rest: u32, nimbers: &Nimbers) -> Option<usize> {
        if rest >= self.cells[c].value {
            return None;
        }
        match &self.rules {
            Rules::Row(row) => row.reply(c, rest, &self.cells),
            Rules::Mixture(a, b) => match c.checked_sub(a.cells.len()) {
                None => a.reply(c, rest, nimbers),
                Some(d) => b.reply(d, rest, nimbers),
            },
            Rules::Product(a, b) => {
                let (x, y) = (c / b.cells.len(), c % b.cells.len());
                let (a_value, b_value) = (a.cells[x].value, b.cells[y].value);
                let change = self.cells[c].value ^ rest;
                let b_rest = |a_rest| b_value ^ nimbers.product(change, nimbers.inverse(a_value ^ a_rest));
                let a_rest = (0..a_value).find(|&a_rest| b_rest(a_rest) < b_value)?;
                let (i, j) = (a.reply(x, a_rest, nimbers)?, b.reply(y, b_rest(a_rest), nimbers)?);
                Some(i * b.cells[y].moves as usize + j)
            }
        }
    }
}

// Play

#[derive(Clone, Copy, PartialEq)]
enum State {
    Setting,
    Playing,
    Over,
}

#[derive(Clone, Copy)]
enum Refusal {
    NoCells = 1,
    WrongState = 2,
    OffBoard = 3,
    Heads = 4,
    Tails = 5,
    NoMove = 6,
}

struct Table {
    nimbers: Nimbers,
    game: Game,
    heads: Vec<bool>,
    state: State,
    /// The nim sum of the values of the heads.
    value: u32,
    /// How many heads have a move.
    movable: usize,
}

impl Table {
    /// None where no pile has the number.
    fn new(head: Head) -> Option<Table> {
        let nimbers = Nimbers::new();
        let game = Game::pile(head, &nimbers)?;
        let heads = vec![false; game.cells.len()];
        Some(Table { nimbers, game, heads, state: State::Setting, value: 0, movable: 0 })
    }

    fn allow(&self, state: State) -> Result<(), Refusal> {
        if self.game.cells.is_empty() {
            Err(Refusal::NoCells)
        } else if self.state != state {
            Err(Refusal::WrongState)
        } else {
            Ok(())
        }
    }

    fn is_head(&self, c: usize) -> Result<bool, Refusal> {
        self.heads.get(c).copied().ok_or(Refusal::OffBoard)
    }

    fn flip(&mut self, c: usize) {
        let cell = self.game.cells[c];
        self.heads[c] = !self.heads[c];
        self.value ^= cell.value;
        if cell.moves > 0 && self.heads[c] {
            self.movable += 1;
        } else if cell.moves > 0 {
            self.movable -= 1;
        }
    }

    /// Goes on playing where a head has a move; gives whether the table is over.
    fn go_on(&mut self) -> bool {
        self.state = if self.movable > 0 { State::Playing } else { State::Over };
        self.state == State::Over
    }

    fn lay(&mut self, c: usize) -> Result<(), Refusal> {
        self.allow(State::Setting)?;
        if self.is_head(c)? {
            return Err(Refusal::Heads);
        }
        self.flip(c);
        Ok(())
    }

    fn begin(&mut self) -> Result<bool, Refusal> {
        self.allow(State::Setting)?;
        Ok(self.go_on())
    }

    fn turn(&mut self, c: usize, i: u32) -> Result<bool, Refusal> {
        self.allow(State::Playing)?;
        if !self.is_head(c)? {
            return Err(Refusal::Tails);
        }
        if i >= self.game.cells[c].moves {
            return Err(Refusal::NoMove);
        }
        for cell in self.game.turned(c, i as usize) {
            self.flip(cell);
        }
        Ok(self.go_on())
    }

    /// A cell and a move that win, if the position is won.
    fn advise(&self) -> Result<Option<(usize, usize)>, Refusal> {
        self.allow(State::Playing)?;
        let rest = |c: usize| self.game.cells[c].value ^ self.value;
        let falls = |&c: &usize| self.heads[c] && rest(c) < self.game.cells[c].value;
        let reply = |c| Some((c, self.game.reply(c, rest(c), &self.nimbers)?));
        Ok((0..self.heads.len()).find(falls).and_then(reply))
    }
}

// Records

#[derive(Clone, Copy)]
struct Head {
    pile: u16,
    w: u16,
    h: u16,
    set: u32,
}

#[derive(Clone, Copy)]
enum Record<'a> {
    Head(Head),
    Lay(u16),
    Begin,
    Turn(u16, u32),
    Advise,
    Remark(&'a [u8]),
    End,
}

#[derive(Clone, Copy)]
enum Fault {
    Cut = 10,
    Kind = 11,
    Length = 12,
    Head = 13,
    Pile = 14,
    Text = 15,
    TooLong = 16,
    NoEnd = 17,
    AfterEnd = 18,
}

struct Reader<'a> {
    data: &'a [u8],
    place: usize,
    /// The number of the record that comes next.
    number: usize,
    ended: bool,
}

impl<'a> Reader<'a> {
    fn new(data: &'a [u8]) -> Reader<'a> {
        Reader { data, place: 0, number: 1, ended: false }
    }

    /// The next record; none behind the end record, where the file ends. A fault leaves the place and the number.
    fn next(&mut self) -> Result<Option<Record<'a>>, Fault> {
        let left = self.data.get(self.place..).unwrap_or_default();
        if self.data.len() > MAX_FILE {
            return Err(Fault::TooLong);
        }
        match (self.ended, left.is_empty()) {
            (true, true) => return Ok(None),
            (true, false) => return Err(Fault::AfterEnd),
            (false, true) => return Err(Fault::NoEnd),
            (false, false) => {}
        }
        let (kind, body) = cut(left).ok_or(Fault::Cut)?;
        let record = decode(kind, body)?;
        check(record, self.number == 1)?;
        self.ended = matches!(record, Record::End);
        self.place += 4 + body.len();
        self.number += 1;
        Ok(Some(record))
    }
}

/// The kind and the body of the first record.
fn cut(data: &[u8]) -> Option<(u16, &[u8])> {
    let (&[l0, l1, k0, k1], rest) = data.split_first_chunk()?;
    let body = rest.get(..usize::from(u16::from_le_bytes([l0, l1])))?;
    Some((u16::from_le_bytes([k0, k1]), body))
}

fn decode(kind: u16, body: &[u8]) -> Result<Record<'_>, Fault> {
    match (kind, body) {
        (1, &[p0, p1, w0, w1, h0, h1, s0, s1, s2, s3]) => Ok(Record::Head(Head {
            pile: u16::from_le_bytes([p0, p1]),
            w: u16::from_le_bytes([w0, w1]),
            h: u16::from_le_bytes([h0, h1]),
            set: u32::from_le_bytes([s0, s1, s2, s3]),
        })),
        (2, &[c0, c1]) => Ok(Record::Lay(u16::from_le_bytes([c0, c1]))),
        (3, []) => Ok(Record::Begin),
        (4, &[c0, c1, m0, m1, m2, m3]) => {
            Ok(Record::Turn(u16::from_le_bytes([c0, c1]), u32::from_le_bytes([m0, m1, m2, m3])))
        }
        (5, []) => Ok(Record::Advise),
        (6, text) if text.len() <= MAX_TEXT => Ok(Record::Remark(text)),
        (7, []) => Ok(Record::End),
        (1..=7, _) => Err(Fault::Length),
        _ => Err(Fault::Kind),
    }
}

fn check(record: Record, first: bool) -> Result<(), Fault> {
    if first != matches!(record, Record::Head(_)) {
        return Err(Fault::Head);
    }
    match record {
        Record::Head(head) if !(1..=6).contains(&head.pile) => Err(Fault::Pile),
        Record::Remark(text) if !text.iter().all(|byte| (32..=126).contains(byte)) => Err(Fault::Text),
        _ => Ok(()),
    }
}

// Lines

fn report(data: &[u8], out: &mut impl Write) -> io::Result<()> {
    let mut reader = Reader::new(data);
    let mut table = None;
    loop {
        let (number, place) = (reader.number, reader.place);
        match reader.next() {
            Ok(Some(Record::Head(head))) => {
                table = Table::new(head);
                let size = table.as_ref().map_or(0, |table| table.game.cells.len());
                writeln!(out, "{number} board {size}")?;
            }
            Ok(Some(record)) => {
                if let Some(table) = &mut table {
                    write!(out, "{number} ")?;
                    answer(table, record, out)?;
                }
            }
            Ok(None) => return Ok(()),
            Err(fault) => return writeln!(out, "{number} bad {} at {place}", fault as u8),
        }
    }
}

/// The line under a record that is no head, behind its number.
fn answer(table: &mut Table, record: Record, out: &mut impl Write) -> io::Result<()> {
    let written = match record {
        Record::Head(_) => return Ok(()),
        Record::Lay(c) => table.lay(usize::from(c)).map(|()| writeln!(out, "laid {c}")),
        Record::Begin => table.begin().map(|over| writeln!(out, "begun{}", ending(over))),
        Record::Turn(c, i) => {
            table.turn(usize::from(c), i).map(|over| writeln!(out, "turned {c} {i} {}{}", table.value, ending(over)))
        }
        Record::Advise => table.advise().map(|advice| match advice {
            Some((c, i)) => writeln!(out, "play {c} {i}"),
            None => writeln!(out, "lost"),
        }),
        Record::Remark(text) => {
            out.write_all(b"said ")?;
            out.write_all(text)?;
            return out.write_all(b"\n");
        }
        Record::End => return writeln!(out, "end"),
    };
    written.unwrap_or_else(|refusal| writeln!(out, "no {}", refusal as u8))
}

fn ending(over: bool) -> &'static str {
    if over { " over" } else { "" }
}
