//! A lean client in plain Rust, which proves nothing, over the same bytes as `call_bench` and with its
//! arguments. It packs a command, finds its key and its slot, writes into memory, reads from there
//! through a buffer, and parses the reply. It follows no redirect, keeps no log and closes no link.

use std::env;
use std::time::Instant;

const SLOTS: usize = 16_384;
const PIPELINE: usize = 10_000;
const PIECE: usize = 4096;
const VALUE: &[u8] = b"$16\r\n0123456789abcdef\r\n";

#[derive(Debug)]
enum Value {
    Nil,
    Int(i64),
    Bulk(Vec<u8>),
    Simple(String),
    Error(String),
    Array(Vec<Value>),
}

type Result<T> = std::result::Result<T, &'static str>;

/// A decimal number, in a buffer of its own.
struct Decimal([u8; 20]);

impl Decimal {
    fn of(&mut self, mut number: usize) -> &[u8] {
        let mut start = self.0.len();
        loop {
            start -= 1;
            self.0[start] = b'0' + (number % 10) as u8;
            number /= 10;
            if number == 0 {
                return &self.0[start..];
            }
        }
    }
}

/// Arguments one behind another, and where each ends.
struct Command {
    data: Vec<u8>,
    ends: Vec<usize>,
}

impl Command {
    fn new(name: &str) -> Command {
        let mut command = Command {
            data: Vec::new(),
            ends: Vec::new(),
        };
        command.arg(name.as_bytes());
        command
    }

    fn arg(&mut self, arg: &[u8]) {
        self.data.extend_from_slice(arg);
        self.ends.push(self.data.len());
    }

    fn at(&self, place: usize) -> Option<&[u8]> {
        let end = *self.ends.get(place)?;
        let start = if place == 0 { 0 } else { self.ends[place - 1] };
        Some(&self.data[start..end])
    }

    fn pack(&self, out: &mut Vec<u8>) {
        let mut decimal = Decimal([0; 20]);
        out.reserve(self.data.len() + 16 + 16 * self.ends.len());
        out.push(b'*');
        out.extend_from_slice(decimal.of(self.ends.len()));
        out.extend_from_slice(b"\r\n");
        let mut start = 0;
        for &end in &self.ends {
            out.push(b'$');
            out.extend_from_slice(decimal.of(end - start));
            out.extend_from_slice(b"\r\n");
            out.extend_from_slice(&self.data[start..end]);
            out.extend_from_slice(b"\r\n");
            start = end;
        }
    }
}

/// The remainders of CRC16 (polynomial 1021) of each byte.
fn crc_table() -> [u16; 256] {
    let mut table = [0; 256];
    for (byte, entry) in table.iter_mut().enumerate() {
        let mut register = (byte as u16) << 8;
        for _ in 0..8 {
            register = if register & 0x8000 == 0 {
                register << 1
            } else {
                (register << 1) ^ 0x1021
            };
        }
        *entry = register;
    }
    table
}

fn slot_of(table: &[u16; 256], key: &[u8]) -> usize {
    let mut part = key;
    if let Some(open) = key.iter().position(|&byte| byte == b'{') {
        match key[open + 1..].iter().position(|&byte| byte == b'}') {
            Some(len) if len > 0 => part = &key[open + 1..open + 1 + len],
            _ => {}
        }
    }
    let register = part.iter().fold(0u16, |register, &byte| {
        (register << 8) ^ table[((register >> 8) as u8 ^ byte) as usize]
    });
    register as usize % SLOTS
}

/// Where a command goes: by the argument at a place, in parts, to any node, or nowhere.
enum Rule {
    Key(usize),
    Split,
    AnyNode,
    Nowhere,
}

fn rule_of(name: &[u8]) -> Rule {
    let mut upper = [0; 16];
    let Some(upper) = upper.get_mut(..name.len()) else {
        return Rule::Key(1);
    };
    upper.copy_from_slice(name);
    upper.make_ascii_uppercase();
    match &*upper {
        b"MGET" | b"MSET" | b"DEL" | b"EXISTS" | b"UNLINK" | b"TOUCH" => Rule::Split,
        b"ECHO" | b"TIME" | b"PUBLISH" | b"LASTSAVE" => Rule::AnyNode,
        b"EVAL" | b"EVALSHA" | b"FCALL" => Rule::Key(3),
        b"XINFO" | b"XGROUP" | b"OBJECT" | b"MEMORY" | b"BITOP" => Rule::Key(2),
        b"PING" | b"FLUSHALL" | b"DBSIZE" | b"KEYS" | b"INFO" | b"MULTI" | b"EXEC" | b"SCAN" | b"AUTH"
        | b"SELECT" | b"SUBSCRIBE" | b"CLIENT" | b"CLUSTER" => Rule::Nowhere,
        _ => Rule::Key(1),
    }
}

/// The bytes before the first CR LF, and where the rest begins.
fn line(bytes: &[u8]) -> Option<(&[u8], usize)> {
    let mut from = 0;
    while let Some(found) = bytes[from..].iter().position(|&byte| byte == b'\r') {
        let end = from + found;
        if bytes.get(end + 1) == Some(&b'\n') {
            return Some((&bytes[..end], end + 2));
        }
        from = end + 1;
    }
    None
}

fn number(bytes: &[u8]) -> Result<i64> {
    let (negative, digits) = match bytes {
        [b'-', digits @ ..] => (true, digits),
        digits => (false, digits),
    };
    let mut number = 0i64;
    for digit in digits {
        if !digit.is_ascii_digit() {
            return Err("no number");
        }
        let digit = i64::from(digit - b'0');
        number = number
            .checked_mul(10)
            .and_then(|tens| tens.checked_add(digit))
            .ok_or("too large")?;
    }
    Ok(if negative { -number } else { number })
}

fn text(bytes: &[u8]) -> Result<String> {
    String::from_utf8(bytes.to_vec()).map_err(|_| "no text")
}

/// The first value and where the rest begins; none where it is not whole.
fn parse(bytes: &[u8]) -> Result<Option<(Value, usize)>> {
    let Some(kind) = bytes.first() else {
        return Ok(None);
    };
    let Some((head, used)) = line(&bytes[1..]) else {
        return Ok(None);
    };
    let start = 1 + used;
    match kind {
        b'+' => Ok(Some((Value::Simple(text(head)?), start))),
        b'-' => Ok(Some((Value::Error(text(head)?), start))),
        b':' => Ok(Some((Value::Int(number(head)?), start))),
        b'$' => match usize::try_from(number(head)?) {
            Err(_) => Ok(Some((Value::Nil, start))),
            Ok(len) => match bytes.get(start..start + len + 2) {
                None => Ok(None),
                Some([bulk @ .., b'\r', b'\n']) => Ok(Some((Value::Bulk(bulk.to_vec()), start + len + 2))),
                Some(_) => Err("no end"),
            },
        },
        b'*' => {
            let count = number(head)?;
            let mut items = Vec::with_capacity(usize::try_from(count).unwrap_or(0));
            let mut at = start;
            for _ in 0..count {
                let Some((item, used)) = parse(&bytes[at..])? else {
                    return Ok(None);
                };
                items.push(item);
                at += used;
            }
            Ok(Some((Value::Array(items), at)))
        }
        _ => Err("no type"),
    }
}

#[derive(Default)]
struct Link {
    replies: Vec<u8>,
    at: usize,
    sent: Vec<u8>,
    buffer: Vec<u8>,
    front: usize,
}

impl Link {
    fn read(&mut self) -> Result<()> {
        let end = self.replies.len().min(self.at + PIECE);
        if self.at == end {
            return Err("the bytes ended");
        }
        self.buffer.drain(..self.front);
        self.front = 0;
        self.buffer.extend_from_slice(&self.replies[self.at..end]);
        self.at = end;
        Ok(())
    }

    fn reply(&mut self) -> Result<Value> {
        loop {
            if let Some((value, used)) = parse(&self.buffer[self.front..])? {
                self.front += used;
                if self.front == self.buffer.len() {
                    self.buffer.clear();
                    self.front = 0;
                }
                return Ok(value);
            }
            self.read()?;
        }
    }
}

struct Client {
    links: Vec<Link>,
    nodes: Vec<u16>,
    crc: [u16; 256],
}

impl Client {
    fn node_of(&self, command: &Command) -> Result<usize> {
        match rule_of(command.at(0).ok_or("no name")?) {
            Rule::Key(place) => {
                let key = command.at(place).ok_or("no key")?;
                Ok(self.nodes[slot_of(&self.crc, key)] as usize)
            }
            Rule::AnyNode => Ok(0),
            Rule::Split | Rule::Nowhere => Err("no route"),
        }
    }

    fn exchange(&mut self, node: usize, command: &Command) -> Result<Value> {
        let mut bytes = Vec::new();
        command.pack(&mut bytes);
        let link = &mut self.links[node];
        link.sent.extend_from_slice(&bytes);
        match link.reply()? {
            Value::Error(_) => Err("an error"),
            value => Ok(value),
        }
    }

    fn query(&mut self, command: &Command) -> Result<Value> {
        let node = self.node_of(command)?;
        self.exchange(node, command)
    }

    /// A part for each slot, in order of first appearance, and each item at the place of its key.
    fn mget(&mut self, keys: &[String]) -> Result<Vec<Value>> {
        let mut parts: Vec<(usize, Command, Vec<usize>)> = Vec::new();
        let mut part_of = vec![None; SLOTS];
        for (place, key) in keys.iter().enumerate() {
            let slot = slot_of(&self.crc, key.as_bytes());
            let part = *part_of[slot].get_or_insert_with(|| {
                parts.push((slot, Command::new("MGET"), Vec::new()));
                parts.len() - 1
            });
            parts[part].1.arg(key.as_bytes());
            parts[part].2.push(place);
        }
        let mut values: Vec<Value> = keys.iter().map(|_| Value::Nil).collect();
        for (slot, command, places) in parts {
            let node = self.nodes[slot] as usize;
            let Value::Array(items) = self.exchange(node, &command)? else {
                return Err("no array");
            };
            for (place, item) in places.into_iter().zip(items) {
                values[place] = item;
            }
        }
        Ok(values)
    }

    /// One buffer for each node, and each reply goes straight to its place.
    fn pipeline(&mut self, commands: &[Command]) -> Result<Vec<Value>> {
        let mut buffers: Vec<Vec<u8>> = self.links.iter().map(|_| Vec::new()).collect();
        let mut places: Vec<Vec<usize>> = self.links.iter().map(|_| Vec::new()).collect();
        for (place, command) in commands.iter().enumerate() {
            let node = self.node_of(command)?;
            command.pack(&mut buffers[node]);
            places[node].push(place);
        }
        let mut values: Vec<Value> = commands.iter().map(|_| Value::Nil).collect();
        let mut failed = None;
        for (node, link) in self.links.iter_mut().enumerate() {
            link.sent.extend_from_slice(&buffers[node]);
            for &place in &places[node] {
                match link.reply()? {
                    Value::Error(error) => failed = failed.or(Some(error)),
                    value => values[place] = value,
                }
            }
        }
        failed.map_or(Ok(values), |_| Err("an error"))
    }
}

fn get_of(key: &str) -> Command {
    let mut command = Command::new("GET");
    command.arg(key.as_bytes());
    command
}

fn len_of(value: Value) -> usize {
    match value {
        Value::Bulk(bytes) => bytes.len(),
        Value::Int(number) => number as usize,
        Value::Simple(text) => text.len(),
        Value::Array(items) => items.len(),
        Value::Nil | Value::Error(_) => 0,
    }
}

fn pipe(client: &mut Client, keys: &[String]) -> Result<usize> {
    let commands: Vec<Command> = keys.iter().map(|key| get_of(key)).collect();
    Ok(client.pipeline(&commands)?.into_iter().map(len_of).sum())
}

fn serve(workload: &str, client: &mut Client, keys: &[String]) -> Result<usize> {
    match workload {
        "get" => keys
            .iter()
            .map(|key| client.query(&get_of(key)).map(len_of))
            .sum(),
        "mget" => Ok(client.mget(keys)?.into_iter().map(len_of).sum()),
        "pipe" => pipe(client, keys),
        "pipes" => keys.chunks(PIPELINE).map(|some| pipe(client, some)).sum(),
        _ => Ok(0),
    }
}

fn client_for(workload: &str, keys: &[String], count: usize) -> Client {
    let crc = crc_table();
    let nodes: Vec<u16> = (0..SLOTS).map(|slot| (slot * count / SLOTS) as u16).collect();
    let mut links: Vec<Link> = (0..count).map(|_| Link::default()).collect();
    let mut counts = vec![0; SLOTS];
    let mut slots = Vec::new();
    for slot in keys.iter().map(|key| slot_of(&crc, key.as_bytes())) {
        if counts[slot] == 0 {
            slots.push(slot);
        }
        counts[slot] += 1;
    }
    for slot in slots {
        let replies = &mut links[nodes[slot] as usize].replies;
        if workload == "mget" {
            replies.extend_from_slice(format!("*{}\r\n", counts[slot]).as_bytes());
        }
        replies.extend_from_slice(&VALUE.repeat(counts[slot]));
    }
    Client { links, nodes, crc }
}

fn main() {
    let arguments: Vec<String> = env::args().skip(1).collect();
    let [workload, keys, nodes] = &arguments[..] else {
        panic!("which workload, how many keys, and how many nodes?");
    };
    let keys: Vec<String> = (0..keys.parse().unwrap())
        .map(|number: usize| format!("key:{number:06}"))
        .collect();
    let mut client = client_for(workload, &keys, nodes.parse().unwrap());
    let start = Instant::now();
    let total = serve(workload, &mut client, &keys).unwrap();
    eprintln!("{}", start.elapsed().as_nanos());
    println!("{total}");
}
