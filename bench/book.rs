// The running book in plain Rust, and the made-up market of crates/bench_book: the same data, the same order of work, the same
// random numbers. It prints what that program prints; with --print it prints the commands, as `hammerbuff run` reads them.
// Built by bench/run.sh with rustc -O.
//
// What matches is written as the crates rank, market, ruled_market and book write it, without their contracts.

use std::cmp::Reverse;
use std::io::{self, BufWriter, Write};
use std::process::ExitCode;

const MOST_ORDERS: usize = 32;
const LAST_NUMBER: u64 = 1_000_000_000_000;

#[derive(Clone, Copy, PartialEq, Eq)]
enum Side {
    Buy = 0,
    Sell = 1,
}

#[derive(Clone, Copy)]
enum Command {
    Enter { member: u32, side: Side, price: u32, lots: u32 },
    Cancel { member: u32, order: u64 },
    // In the book it does nothing; the made-up market has none.
    #[allow(dead_code)]
    Cross,
}

impl Command {
    fn is_good(&self) -> bool {
        match *self {
            Command::Enter { member, side: _, price, lots } => {
                is_member(member) && (1..=1_000_000).contains(&price) && (1..=1_000_000).contains(&lots)
            }
            Command::Cancel { member, order } => is_member(member) && (1..=LAST_NUMBER).contains(&order),
            Command::Cross => true,
        }
    }
}

fn is_member(member: u32) -> bool {
    (1..=999_999).contains(&member)
}

#[derive(Clone, Copy, Default)]
enum Kind {
    #[default]
    Fill = 1,
    Dropped = 2,
    Cancelled = 3,
}

#[derive(Clone, Copy, Default)]
struct Party {
    order: u64,
    member: u32,
}

#[derive(Clone, Copy, Default)]
struct Notice {
    // Written as the book writes it: not counted yet.
    #[allow(dead_code)]
    number: u64,
    command: u64,
    kind: Kind,
    a: Party,
    b: Party,
    price: u32,
    lots: u32,
}

#[derive(Clone, Copy)]
struct Order {
    number: u64,
    member: u32,
    price: u32,
    lots: u32,
}

impl Order {
    fn party(&self) -> Party {
        Party { order: self.number, member: self.member }
    }

    fn accepts(&self, side: Side, price: u32) -> bool {
        match side {
            Side::Buy => price <= self.price,
            Side::Sell => self.price <= price,
        }
    }
}

fn fill_notice(command: u64, buy: &Order, sell: &Order, price: u32, lots: u32) -> Notice {
    Notice { number: 0, command, kind: Kind::Fill, a: buy.party(), b: sell.party(), price, lots }
}

fn lots_notice(kind: Kind, command: u64, order: &Order) -> Notice {
    Notice { number: 0, command, kind, a: order.party(), b: Party::default(), price: 0, lots: order.lots }
}

impl Side {
    fn other(self) -> Side {
        match self {
            Side::Buy => Side::Sell,
            Side::Sell => Side::Buy,
        }
    }

    fn stands_before(&self, x: &Order, y: &Order) -> bool {
        match self {
            Side::Buy => (Reverse(x.price), x.number) < (Reverse(y.price), y.number),
            Side::Sell => (x.price, x.number) < (y.price, y.number),
        }
    }
}

fn first_in_rank(side: Side, xs: &[Order]) -> Option<usize> {
    if xs.is_empty() {
        return None;
    }
    let mut best = 0;
    for (i, x) in xs.iter().enumerate() {
        if side.stands_before(x, &xs[best]) {
            best = i;
        }
    }
    Some(best)
}

struct OrderTable {
    rows: Vec<Order>,
}

impl OrderTable {
    fn new() -> OrderTable {
        OrderTable { rows: Vec::with_capacity(MOST_ORDERS) }
    }

    fn reduce(&mut self, lots: u32) {
        let left = self.rows[0].lots - lots;
        if left == 0 {
            self.rows.remove(0);
        } else {
            self.rows[0].lots = left;
        }
    }

    fn rest(&mut self, side: Side, order: Order) -> Option<Notice> {
        if self.rows.len() < MOST_ORDERS {
            let behind = self.rows.iter().position(|y| side.stands_before(&order, y));
            self.rows.insert(behind.unwrap_or(self.rows.len()), order);
            None
        } else {
            Some(lots_notice(Kind::Dropped, order.number, &order))
        }
    }

    fn settle(&mut self, side: Side, order: Order, list: &mut [Notice]) -> usize {
        match self.rest(side, order) {
            None => 0,
            Some(dropped) => {
                list[0] = dropped;
                1
            }
        }
    }

    fn withdraw(&mut self, member: u32, order: u64) -> Option<Order> {
        let i = self.rows.iter().position(|row| row.number == order && row.member == member)?;
        Some(self.rows.remove(i))
    }
}

fn fill_first(side: Side, taker: &mut Order, opposite: &mut OrderTable) -> Option<Notice> {
    let i = first_in_rank(side.other(), &opposite.rows)?;
    let maker = opposite.rows[i];
    if !(taker.lots > 0 && taker.accepts(side, maker.price)) {
        return None;
    }
    let lots = taker.lots.min(maker.lots);
    let notice = match side {
        Side::Buy => fill_notice(taker.number, taker, &maker, maker.price, lots),
        Side::Sell => fill_notice(taker.number, &maker, taker, maker.price, lots),
    };
    taker.lots -= lots;
    opposite.reduce(lots);
    Some(notice)
}

fn trade(side: Side, order: Order, own: &mut OrderTable, opposite: &mut OrderTable, list: &mut [Notice]) -> usize {
    let mut taker = order;
    let mut n = 0;
    while let Some(notice) = fill_first(side, &mut taker, opposite) {
        list[n] = notice;
        n += 1;
    }
    if taker.lots == 0 {
        return n;
    }
    n + own.settle(side, taker, &mut list[n..])
}

struct Book {
    last: u64,
    buys: OrderTable,
    sells: OrderTable,
}

impl Book {
    fn new() -> Book {
        Book { last: 0, buys: OrderTable::new(), sells: OrderTable::new() }
    }

    fn cancel(&mut self, member: u32, order: u64, list: &mut [Notice]) -> usize {
        let bought = self.buys.withdraw(member, order);
        let sold = self.sells.withdraw(member, order);
        match bought.or(sold) {
            None => 0,
            Some(withdrawn) => {
                list[0] = lots_notice(Kind::Cancelled, self.last, &withdrawn);
                1
            }
        }
    }

    fn act(&mut self, command: &Command, list: &mut [Notice]) -> usize {
        match *command {
            Command::Enter { member, side, price, lots } => {
                let order = Order { number: self.last, member, price, lots };
                match side {
                    Side::Buy => trade(side, order, &mut self.buys, &mut self.sells, list),
                    Side::Sell => trade(side, order, &mut self.sells, &mut self.buys, list),
                }
            }
            Command::Cancel { member, order } => self.cancel(member, order, list),
            Command::Cross => 0,
        }
    }

    // None where the list is too short.
    fn apply(&mut self, command: &Command, list: &mut [Notice]) -> Option<usize> {
        if list.len() < 64 {
            return None;
        }
        if self.last >= LAST_NUMBER {
            return Some(0);
        }
        self.last += 1;
        if !command.is_good() {
            return Some(0);
        }
        Some(self.act(command, list))
    }
}

struct Stream {
    seed: u64,
    mid: u32,
}

fn cancel_at(orders: &[Order], place: u32) -> Option<Command> {
    let order = orders.get(place as usize)?;
    Some(Command::Cancel { member: order.member, order: order.number })
}

impl Stream {
    fn new() -> Stream {
        Stream { seed: 1, mid: 10_000 }
    }

    fn below(&mut self, n: u32) -> u32 {
        self.seed = self.seed.wrapping_mul(6_364_136_223_846_793_005).wrapping_add(1_442_695_040_888_963_407);
        ((self.seed >> 32).wrapping_mul(u64::from(n)) >> 32) as u32
    }

    fn enter(&mut self) -> Command {
        let drift = self.below(3);
        self.mid = self.mid.saturating_add(drift).saturating_sub(1).clamp(1_000, 100_000);
        let noise = self.below(24);
        let member = self.below(1000).wrapping_add(1);
        let lots = self.below(100).wrapping_add(1);
        let (side, price) = match self.below(2) {
            0 => (Side::Buy, self.mid.saturating_add(8).saturating_sub(noise)),
            _ => (Side::Sell, self.mid.saturating_sub(8).saturating_add(noise)),
        };
        Command::Enter { member, side, price, lots }
    }

    fn next_command(&mut self, book: &Book) -> Command {
        let place = self.below(32);
        let cancel = match self.below(8) {
            0 => cancel_at(&book.buys.rows, place),
            1 => cancel_at(&book.sells.rows, place),
            _ => None,
        };
        match cancel {
            Some(command) => command,
            None => self.enter(),
        }
    }
}

struct Tally {
    notices: u64,
    sum: u64,
}

impl Tally {
    fn note(&mut self, notice: &Notice) {
        let traded = u64::from(notice.lots).wrapping_mul(u64::from(notice.price));
        let members = u64::from(notice.a.member).wrapping_add(u64::from(notice.b.member));
        let orders = notice.a.order.wrapping_add(notice.b.order);
        let command = notice.command.wrapping_add(notice.kind as u64);
        let word = traded.wrapping_add(members).wrapping_add(orders).wrapping_add(command);
        self.notices = self.notices.wrapping_add(1);
        self.sum = self.sum.wrapping_mul(31).wrapping_add(word);
    }
}

fn run(book: &mut Book, commands: u64) -> Option<Tally> {
    let mut stream = Stream::new();
    let mut list = [Notice::default(); 64];
    let mut tally = Tally { notices: 0, sum: 0 };
    for _ in 0..commands {
        let command = stream.next_command(book);
        let n = book.apply(&command, &mut list)?;
        for notice in list.iter().take(n) {
            tally.note(notice);
        }
    }
    Some(tally)
}

fn print_command(out: &mut impl Write, command: &Command) -> io::Result<()> {
    match *command {
        Command::Enter { member, side, price, lots } => {
            let side = if side == Side::Buy { "buy" } else { "sell" };
            writeln!(out, "enter {member} {side} {price} {lots}")
        }
        Command::Cancel { member, order } => writeln!(out, "cancel {member} {order}"),
        Command::Cross => writeln!(out, "cross"),
    }
}

// The commands of `run`, a line each.
fn print_commands(commands: u64) -> io::Result<()> {
    let mut out = BufWriter::new(io::stdout().lock());
    let (mut book, mut stream) = (Book::new(), Stream::new());
    let mut list = [Notice::default(); 64];
    for _ in 0..commands {
        let command = stream.next_command(&book);
        print_command(&mut out, &command)?;
        book.apply(&command, &mut list);
    }
    out.flush()
}

fn main() -> ExitCode {
    let mut words = std::env::args().skip(1);
    let Ok(commands) = words.next().map_or(Ok(10_000), |word| word.parse::<u64>()) else {
        eprintln!("say how many commands");
        return ExitCode::FAILURE;
    };
    if words.next().is_some_and(|word| word == "--print") {
        return print_commands(commands).map_or(ExitCode::FAILURE, |()| ExitCode::SUCCESS);
    }
    let mut book = Book::new();
    let Some(Tally { notices, sum }) = run(&mut book, commands) else {
        return ExitCode::FAILURE;
    };
    let (buys, sells) = (book.buys.rows.len(), book.sells.rows.len());
    println!("{commands} commands, {notices} notices, sum {sum}, {buys} buys and {sells} sells rest");
    ExitCode::SUCCESS
}
