//! Times the making of a docket's instance and the opening of a core in plain Rust, of the same parts.
use std::collections::VecDeque;
use std::io::Read;
use std::time::Instant;

#[derive(Default)]
struct Docket {
    quotas: Vec<u32>,
    programme_lists: Vec<Option<Vec<u32>>>,
    resident_lists: Vec<Option<Vec<u32>>>,
}

fn number(name: &str) -> u32 {
    name[1..].parse().unwrap()
}

fn docket(text: &str) -> Docket {
    let mut docket = Docket::default();
    for line in text.lines() {
        let fields: Vec<&str> = line.split(',').collect();
        let list = || Some(fields[2..].iter().map(|name| number(name)).collect());
        match fields[0] {
            "Q" => docket.quotas.push(fields[2].parse().unwrap()),
            "P" => docket.programme_lists.push(list()),
            "R" => docket.resident_lists.push(list()),
            _ => {}
        }
    }
    docket
}

#[allow(dead_code)]
struct Instance {
    quotas: Vec<u32>,
    programme_lists: Vec<Vec<u32>>,
    resident_lists: Vec<Vec<u32>>,
    programme_ranks: Vec<Vec<(u32, u32)>>,
    resident_ranks: Vec<Vec<(u32, u32)>>,
    pairs: usize,
}

fn given(list: &Option<Vec<u32>>) -> &[u32] {
    list.as_deref().unwrap_or(&[])
}

/// Each list, with only those who list its owner.
fn mutual(mine: &[Option<Vec<u32>>], theirs: &[Option<Vec<u32>>]) -> Vec<Vec<u32>> {
    let sorted: Vec<Vec<u32>> = theirs
        .iter()
        .map(|list| {
            let mut copy = given(list).to_vec();
            copy.sort();
            copy
        })
        .collect();
    let lists_owner = |owner: usize, item: &u32| sorted[*item as usize].binary_search(&(owner as u32)).is_ok();
    mine.iter()
        .enumerate()
        .map(|(owner, list)| given(list).iter().copied().filter(|item| lists_owner(owner, item)).collect())
        .collect()
}

fn rank_tables(lists: &[Vec<u32>]) -> Vec<Vec<(u32, u32)>> {
    let table = |list: &Vec<u32>| {
        let mut entries: Vec<_> = list.iter().enumerate().map(|(place, number)| (*number, place as u32)).collect();
        entries.sort_by_key(|entry| entry.0);
        entries
    };
    lists.iter().map(table).collect()
}

fn finish(docket: &Docket) -> Instance {
    let programmes = mutual(&docket.programme_lists, &docket.resident_lists);
    let residents = mutual(&docket.resident_lists, &docket.programme_lists);
    Instance {
        quotas: docket.quotas.clone(),
        pairs: programmes.iter().map(Vec::len).sum(),
        programme_ranks: rank_tables(&programmes),
        resident_ranks: rank_tables(&residents),
        programme_lists: programmes.clone(),
        resident_lists: residents.clone(),
    }
}

#[allow(dead_code)]
#[derive(Clone, Copy)]
enum Kind {
    Hold,
    Decline,
    Release,
}

#[allow(dead_code)]
struct ResidentSeat {
    waiting: VecDeque<u32>,
    due: [Option<(u32, Kind)>; 2],
    held: Option<u32>,
    room: u32,
}

#[allow(dead_code)]
struct ProgrammeSeat {
    offered: u32,
    out: u32,
    waiting: VecDeque<(u32, Kind)>,
    room: u32,
}

fn open(inst: &Instance) -> (Vec<ResidentSeat>, Vec<ProgrammeSeat>) {
    let resident = |list: &Vec<u32>| {
        let room = list.len().max(1);
        ResidentSeat { waiting: VecDeque::with_capacity(room), due: [None; 2], held: None, room: room as u32 }
    };
    let programme = |list: &Vec<u32>| {
        let room = (2 * list.len()).max(1);
        ProgrammeSeat { offered: 0, out: 0, waiting: VecDeque::with_capacity(room), room: room as u32 }
    };
    (inst.resident_lists.iter().map(resident).collect(), inst.programme_lists.iter().map(programme).collect())
}

fn main() {
    let mut text = String::new();
    std::io::stdin().read_to_string(&mut text).unwrap();
    let docket = docket(&text);
    let start = Instant::now();
    let inst = finish(&docket);
    println!("finish {} {}", start.elapsed().as_nanos(), inst.pairs);
    let start = Instant::now();
    let core = open(&inst);
    println!("open {} {}", start.elapsed().as_nanos(), core.0.is_empty());
}
