//! The corridor program in plain Rust, written from docs/ alone as a yardstick for the proved one:
//! a corridor file on standard input, `show` and refusals on standard output, exit status 0.
//!
//! Build it with `rustc -O reference/corridor.rs -o corridor-reference`.

use std::collections::VecDeque;
use std::io::{self, BufWriter, Read, Write};

const LONGEST_FILE: usize = 65_535;
const MOST_NODES: usize = 32;
const ROOM: usize = 4_000;
const MOST_WAITING: usize = 500;
const MOST_BOOKED: usize = 200;
const LAST_CLOCK: usize = 1_000_000;

/// What prints as `no number line place`.
struct Refusal {
    number: u32,
    line: usize,
    place: usize,
}

// ---------------------------------------------------------------- lines, words and rows

struct Word<'a> {
    text: &'a [u8],
    place: usize,
}

struct Line<'a> {
    number: usize,
    start: usize,
    words: Vec<Word<'a>>,
}

impl Line<'_> {
    fn refuse(&self, number: u32, place: usize) -> Refusal {
        Refusal { number, line: self.number, place }
    }

    fn refuse_row(&self, number: u32) -> Refusal {
        self.refuse(number, self.start)
    }

    /// The word at this index as a number in the range, else 14 at that word.
    fn number(&self, index: usize, least: usize, most: usize) -> Result<usize, Refusal> {
        let word = &self.words[index];
        match decimal(word.text) {
            Some(n) if least <= n && n <= most => Ok(n),
            _ => Err(self.refuse(14, word.place)),
        }
    }
}

/// A number has no leading zero and is at most 65,535.
fn decimal(text: &[u8]) -> Option<usize> {
    let canonical = text.len() == 1 || text[0] != b'0';
    if !canonical || text.len() > 5 || !text.iter().all(u8::is_ascii_digit) {
        return None;
    }
    let value = text.iter().fold(0, |sum, digit| 10 * sum + usize::from(digit - b'0'));
    (value <= 65_535).then_some(value)
}

struct Reader<'a> {
    file: &'a [u8],
    place: usize,
    line: usize,
}

impl<'a> Reader<'a> {
    /// The next line cut into words; none at the file's end. Refuses by 2, 3 and 4, in this order.
    fn next(&mut self) -> Result<Option<Line<'a>>, Refusal> {
        let start = self.place;
        if start == self.file.len() {
            return Ok(None);
        }
        self.line += 1;
        let rest = &self.file[start..];
        let length = rest.iter().position(|&b| b == b'\n').unwrap_or(rest.len());
        let text = &rest[..length];
        let mut line = Line { number: self.line, start, words: Vec::new() };

        let known = |b: &u8| b.is_ascii_lowercase() || b.is_ascii_digit() || *b == b' ';
        if let Some(bad) = text.iter().position(|b| !known(b)) {
            return Err(line.refuse(2, start + bad));
        }
        let mut place = start;
        for word in text.split(|&b| b == b' ') {
            if word.is_empty() {
                return Err(line.refuse(3, place));
            }
            line.words.push(Word { text: word, place });
            place += word.len() + 1;
        }
        if length == rest.len() {
            return Err(line.refuse(4, self.file.len()));
        }
        self.place = start + length + 1;
        Ok(Some(line))
    }
}

#[derive(Clone, Copy, PartialEq)]
enum Name {
    Net,
    Link,
    Route,
    Merge,
    Meter,
    Go,
    Book,
    Step,
    Show,
}

/// The name of a line's row. Refuses by 11, by 12 for one that is not allowed here, and by 13.
fn row_name(line: &Line, allowed: &[Name]) -> Result<Name, Refusal> {
    let (name, words) = match line.words[0].text {
        b"net" => (Name::Net, 3),
        b"link" => (Name::Link, 7),
        b"route" => (Name::Route, 4),
        b"merge" => (Name::Merge, 2),
        b"meter" => (Name::Meter, 4),
        b"go" => (Name::Go, 1),
        b"book" => (Name::Book, 4),
        b"step" => (Name::Step, 2),
        b"show" => (Name::Show, 1),
        _ => return Err(line.refuse(11, line.words[0].place)),
    };
    if !allowed.contains(&name) {
        return Err(line.refuse_row(12));
    }
    if line.words.len() != words {
        return Err(line.refuse_row(13));
    }
    Ok(name)
}

// ---------------------------------------------------------------- the network

struct Link {
    from: usize,
    to: usize,
    free: usize,
    wave: usize,
    capacity: usize,
    storage: usize,
}

/// A node by its kind, with its links by their index.
#[derive(Clone, Copy)]
enum Node {
    Entrance { leaving: usize },
    Exit { entering: usize },
    Mainline { entering: usize, leaving: usize },
    Merge { first: usize, second: usize, leaving: usize },
    Diverge { entering: usize },
}

#[derive(Clone, Copy)]
enum Rule {
    Fair,
    Ramp,
    Zip,
}

#[derive(Clone, Copy)]
struct Meter {
    rate: usize,
    period: usize,
}

/// Tables by node number leave the entry 0 unused.
struct Network {
    links: Vec<Link>,
    nodes: Vec<Option<Node>>,
    route: [[Option<usize>; MOST_NODES + 1]; MOST_NODES + 1],
    rule: Rule,
    meters: [Option<Meter>; MOST_NODES + 1],
}

impl Network {
    fn node(&self, n: usize) -> Option<Node> {
        self.nodes.get(n).copied().flatten()
    }

    fn kind_of(links: &[Link], n: usize) -> Option<Node> {
        let at = |end: fn(&Link) -> usize| -> Vec<usize> { (0..links.len()).filter(|&i| end(&links[i]) == n).collect() };
        match (&at(|l| l.to)[..], &at(|l| l.from)[..]) {
            (&[], &[leaving]) => Some(Node::Entrance { leaving }),
            (&[entering], &[]) => Some(Node::Exit { entering }),
            (&[entering], &[leaving]) => Some(Node::Mainline { entering, leaving }),
            (&[first, second], &[leaving]) => Some(Node::Merge { first, second, leaving }),
            (&[entering], &[_, _]) => Some(Node::Diverge { entering }),
            _ => None,
        }
    }

    /// Whether the walk from this entrance's link for this exit ends there. Nodes rise along it, so it ends.
    fn serves(&self, leaving: usize, exit: usize) -> bool {
        let mut link = leaving;
        loop {
            let n = self.links[link].to;
            link = match self.node(n) {
                Some(Node::Mainline { leaving, .. } | Node::Merge { leaving, .. }) => leaving,
                Some(Node::Diverge { .. }) => match self.route[n][exit] {
                    Some(link) => link,
                    None => return false,
                },
                _ => return n == exit,
            }
        }
    }
}

/// The file's head, up to and with `go`, and the `go` row's line.
fn read_network<'a>(reader: &mut Reader<'a>) -> Result<(Network, Line<'a>), Refusal> {
    use Name::*;
    let (mut nodes, mut links) = (0, 0);
    let mut net = Network {
        links: Vec::new(),
        nodes: Vec::new(),
        route: [[None; MOST_NODES + 1]; MOST_NODES + 1],
        rule: Rule::Fair,
        meters: [None; MOST_NODES + 1],
    };
    let mut allowed: &[Name] = &[Net];
    while let Some(line) = reader.next()? {
        match row_name(&line, allowed)? {
            Net => {
                nodes = line.number(1, 2, MOST_NODES)?;
                links = line.number(2, 1, 48)?;
                allowed = &[Link];
            }
            Link => {
                let link = self::Link {
                    from: line.number(1, 1, nodes)?,
                    to: line.number(2, 1, nodes)?,
                    free: line.number(3, 1, 63)?,
                    wave: line.number(4, 1, 63)?,
                    capacity: line.number(5, 1, 200)?,
                    storage: line.number(6, 1, 2_000)?,
                };
                if link.from >= link.to {
                    return Err(line.refuse_row(21));
                }
                net.links.push(link);
                if net.links.len() == links {
                    net.nodes = (0..=nodes).map(|n| Network::kind_of(&net.links, n)).collect();
                    if net.nodes[1..].iter().any(Option::is_none) {
                        return Err(line.refuse_row(22));
                    }
                    allowed = &[Route, Merge];
                }
            }
            Route => {
                let node = line.number(1, 1, nodes)?;
                let exit = line.number(2, 1, nodes)?;
                let link = line.number(3, 1, links)? - 1;
                let from_diverge = matches!(net.node(node), Some(Node::Diverge { .. }));
                let to_exit = matches!(net.node(exit), Some(Node::Exit { .. }));
                if !from_diverge || !to_exit || net.links[link].from != node {
                    return Err(line.refuse_row(23));
                }
                if net.route[node][exit].is_some() {
                    return Err(line.refuse_row(24));
                }
                net.route[node][exit] = Some(link);
            }
            Merge => {
                net.rule = match line.words[1].text {
                    b"fair" => Rule::Fair,
                    b"ramp" => Rule::Ramp,
                    b"zip" => Rule::Zip,
                    _ => return Err(line.refuse(14, line.words[1].place)),
                };
                allowed = &[Meter, Go];
            }
            Meter => {
                let node = line.number(1, 1, nodes)?;
                let meter = self::Meter { rate: line.number(2, 1, 200)?, period: line.number(3, 1, 63)? };
                if net.meters[node].is_some() {
                    return Err(line.refuse_row(24));
                }
                if !matches!(net.node(node), Some(Node::Merge { .. })) {
                    return Err(line.refuse_row(25));
                }
                net.meters[node] = Some(meter);
            }
            Go => return Ok((net, line)),
            Book | Step | Show => unreachable!("never allowed in the head"),
        }
    }
    Err(Refusal { number: 15, line: reader.line + 1, place: reader.file.len() })
}

// ---------------------------------------------------------------- the run

/// A cumulative count at the last 64 clocks; 0 at clock 0 and before.
struct Curve {
    readings: [usize; 64],
}

impl Curve {
    /// The count at a clock, `back` steps before it; at most 63 back from the newest reading.
    fn at(&self, clock: usize, back: usize) -> usize {
        if back > clock { 0 } else { self.readings[(clock - back) % 64] }
    }

    fn set(&mut self, clock: usize, count: usize) {
        self.readings[clock % 64] = count;
    }
}

#[derive(Clone, Copy)]
struct Vehicle {
    exit: usize,
    since: usize,
}

/// What changes on a link: U, V, the vehicles on it, oldest first, and what happened in the present step.
struct Road {
    on: Curve,
    off: Curve,
    vehicles: VecDeque<Vehicle>,
    came: usize,
    left: usize,
    travel: Option<usize>,
}

struct Run {
    net: Network,
    clock: usize,
    roads: Vec<Road>,
    /// Exits of those who wait, by entrance.
    waiting: Vec<VecDeque<usize>>,
    /// Whether the second leg passes first at the node's next zip.
    second_turn: [bool; MOST_NODES + 1],
}

impl Run {
    fn open(net: Network) -> Result<Run, u32> {
        let entrances = net.nodes.iter().filter(|n| matches!(n, Some(Node::Entrance { .. }))).count();
        let storage: usize = net.links.iter().map(|l| l.storage).sum();
        if storage + MOST_WAITING * entrances > ROOM {
            return Err(31);
        }
        let road = |_: &Link| Road {
            on: Curve { readings: [0; 64] },
            off: Curve { readings: [0; 64] },
            vehicles: VecDeque::new(),
            came: 0,
            left: 0,
            travel: None,
        };
        let roads = net.links.iter().map(road).collect();
        let waiting = vec![VecDeque::new(); net.nodes.len()];
        Ok(Run { net, clock: 0, roads, waiting, second_turn: [false; MOST_NODES + 1] })
    }

    fn book(&mut self, entrance: usize, exit: usize, count: usize) -> Result<(), u32> {
        let Some(Node::Entrance { leaving }) = self.net.node(entrance) else { return Err(32) };
        let Some(Node::Exit { .. }) = self.net.node(exit) else { return Err(33) };
        if !self.net.serves(leaving, exit) {
            return Err(34);
        }
        if count < 1 || count > MOST_BOOKED {
            return Err(35);
        }
        let waiting = &mut self.waiting[entrance];
        if waiting.len() + count > MOST_WAITING {
            return Err(36);
        }
        waiting.extend(std::iter::repeat(exit).take(count));
        Ok(())
    }

    /// S of a link: those whose free steps are over and who have not left, within capacity.
    fn may_send(&self, link: usize) -> usize {
        let (l, road) = (&self.net.links[link], &self.roads[link]);
        let ready = road.on.at(self.clock, l.free - 1) - road.off.at(self.clock, 0);
        ready.min(l.capacity)
    }

    /// R of a link: the room the backward wave has brought to its start, within capacity.
    fn may_take(&self, link: usize) -> usize {
        let (l, road) = (&self.net.links[link], &self.roads[link]);
        let room = road.off.at(self.clock, l.wave - 1) + l.storage - road.on.at(self.clock, 0);
        room.min(l.capacity)
    }

    /// One step. Curves get their new readings only at its end, so every node acts on those of the present clock;
    /// and since S is at most what was on a link before, no node sends on a vehicle that came in this very step.
    fn step(&mut self) -> Result<(), u32> {
        if self.clock == LAST_CLOCK {
            return Err(37);
        }
        for n in 1..self.net.nodes.len() {
            match self.net.nodes[n] {
                Some(Node::Entrance { leaving }) => {
                    let count = self.waiting[n].len().min(self.may_take(leaving));
                    for _ in 0..count {
                        let exit = self.waiting[n].pop_front().expect("counted");
                        self.bring(exit, leaving);
                    }
                }
                Some(Node::Exit { entering }) => {
                    for _ in 0..self.may_send(entering) {
                        self.release(entering);
                    }
                }
                Some(Node::Mainline { entering, leaving }) => {
                    let count = self.may_send(entering).min(self.may_take(leaving));
                    self.pass(count, entering, leaving);
                }
                Some(Node::Merge { first, second, leaving }) => {
                    let (one, two) = self.split(n, first, second, leaving);
                    self.pass(one, first, leaving);
                    self.pass(two, second, leaving);
                }
                Some(Node::Diverge { entering }) => self.diverge(n, entering),
                None => {}
            }
        }
        let next = self.clock + 1;
        for road in &mut self.roads {
            road.on.set(next, road.on.at(self.clock, 0) + road.came);
            road.off.set(next, road.off.at(self.clock, 0) + road.left);
            if road.left == 0 {
                road.travel = None;
            }
            (road.came, road.left) = (0, 0);
        }
        self.clock = next;
        Ok(())
    }

    /// A vehicle comes on a link in this step.
    fn bring(&mut self, exit: usize, link: usize) {
        let road = &mut self.roads[link];
        road.vehicles.push_back(Vehicle { exit, since: self.clock + 1 });
        road.came += 1;
    }

    /// The first vehicle leaves its link in this step; its exit.
    fn release(&mut self, link: usize) -> usize {
        let road = &mut self.roads[link];
        let vehicle = road.vehicles.pop_front().expect("S is at most the vehicles on the link");
        road.left += 1;
        road.travel = Some(self.clock + 1 - vehicle.since);
        vehicle.exit
    }

    fn pass(&mut self, count: usize, from: usize, to: usize) {
        for _ in 0..count {
            let exit = self.release(from);
            self.bring(exit, to);
        }
    }

    /// Vehicles pass in order, up to the first that finds its link full.
    fn diverge(&mut self, node: usize, entering: usize) {
        for _ in 0..self.may_send(entering) {
            let exit = self.roads[entering].vehicles[0].exit;
            let leaving = self.net.route[node][exit].expect("only served pairs are booked");
            if self.roads[leaving].came == self.may_take(leaving) {
                break;
            }
            self.pass(1, entering, leaving);
        }
    }

    /// How many vehicles each leg of a merge passes, under its meter, if any, and the rule.
    fn split(&mut self, node: usize, first: usize, second: usize, leaving: usize) -> (usize, usize) {
        let limit = match self.net.meters[node] {
            None => usize::MAX,
            Some(meter) if self.clock % meter.period == 0 => meter.rate,
            Some(_) => 0,
        };
        let (s1, s2, r) = (self.may_send(first), self.may_send(second).min(limit), self.may_take(leaving));
        match self.net.rule {
            Rule::Fair => fair(s1, s2, r, self.net.links[first].capacity, self.net.links[second].capacity),
            Rule::Ramp => {
                let g2 = s2.min(r);
                (s1.min(r - g2), g2)
            }
            Rule::Zip => zip(s1, s2, r, &mut self.second_turn[node]),
        }
    }
}

/// By capacity; what one leg leaves of its share goes to the other. Capacities are at least 1.
fn fair(s1: usize, s2: usize, r: usize, q1: usize, q2: usize) -> (usize, usize) {
    let share1 = r * q1 / (q1 + q2);
    let share2 = r - share1;
    if s1 + s2 <= r {
        (s1, s2)
    } else if s1 <= share1 {
        (s1, r - s1)
    } else if s2 <= share2 {
        (r - s2, s2)
    } else {
        (share1, share2)
    }
}

/// One vehicle from each leg in turn; a leg with none left is skipped.
fn zip(s1: usize, s2: usize, r: usize, second_turn: &mut bool) -> (usize, usize) {
    let (mut g1, mut g2) = (0, 0);
    while g1 + g2 < r && (g1 < s1 || g2 < s2) {
        let second = if *second_turn { g2 < s2 } else { g1 == s1 };
        if second {
            g2 += 1;
        } else {
            g1 += 1;
        }
        *second_turn = !second;
    }
    (g1, g2)
}

// ---------------------------------------------------------------- the program

fn show(run: &Run, out: &mut impl Write) -> io::Result<()> {
    let t = run.clock;
    writeln!(out, "clock {t}")?;
    for (i, (link, road)) in run.net.links.iter().zip(&run.roads).enumerate() {
        let (u, v, arrived) = (road.on.at(t, 0), road.off.at(t, 0), road.on.at(t, link.free));
        write!(out, "link {} {u} {v} {arrived} {} ", i + 1, arrived - v)?;
        match road.travel {
            Some(travel) => writeln!(out, "{travel}")?,
            None => writeln!(out, "-")?,
        }
    }
    for (n, node) in run.net.nodes.iter().enumerate() {
        if let Some(Node::Entrance { .. }) = node {
            writeln!(out, "wait {n} {}", run.waiting[n].len())?;
        }
    }
    for (n, node) in run.net.nodes.iter().enumerate() {
        if let Some(Node::Exit { entering }) = node {
            writeln!(out, "gone {n} {}", run.roads[*entering].off.at(t, 0))?;
        }
    }
    Ok(())
}

fn refuse(refusal: Refusal, out: &mut impl Write) -> io::Result<()> {
    writeln!(out, "no {} {} {}", refusal.number, refusal.line, refusal.place)
}

/// The next row behind `go`, or none at the file's end.
fn next_task<'a>(reader: &mut Reader<'a>) -> Result<Option<(Name, Line<'a>)>, Refusal> {
    match reader.next()? {
        None => Ok(None),
        Some(line) => Ok(Some((row_name(&line, &[Name::Book, Name::Step, Name::Show])?, line))),
    }
}

/// Does one row behind `go`. A fault of the row is the outer error, a refusal of the run the inner one.
fn perform(run: &mut Run, name: Name, line: &Line, out: &mut impl Write) -> Result<Result<(), u32>, Refusal> {
    Ok(match name {
        Name::Book => {
            let (entrance, exit, count) = (line.number(1, 0, 65_535)?, line.number(2, 0, 65_535)?, line.number(3, 0, 65_535)?);
            run.book(entrance, exit, count)
        }
        Name::Step => {
            let count = line.number(1, 1, 65_535)?;
            (0..count).try_for_each(|_| run.step())
        }
        _ => {
            show(run, out).expect("standard output");
            Ok(())
        }
    })
}

/// Reads and does the whole file; the fault that ended it, if any.
fn corridor(file: &[u8], out: &mut impl Write) -> Result<(), Refusal> {
    if file.len() > LONGEST_FILE {
        return Err(Refusal { number: 1, line: 0, place: 0 });
    }
    let mut reader = Reader { file, place: 0, line: 0 };
    let (net, go) = read_network(&mut reader)?;
    let mut run = Run::open(net).map_err(|number| go.refuse_row(number))?;
    while let Some((name, line)) = next_task(&mut reader)? {
        if let Err(number) = perform(&mut run, name, &line, out)? {
            refuse(line.refuse_row(number), out).expect("standard output");
        }
    }
    Ok(())
}

fn main() -> io::Result<()> {
    let mut file = Vec::new();
    io::stdin().lock().read_to_end(&mut file)?;
    let mut out = BufWriter::new(io::stdout().lock());
    if let Err(refusal) = corridor(&file, &mut out) {
        refuse(refusal, &mut out)?;
    }
    out.flush()
}
