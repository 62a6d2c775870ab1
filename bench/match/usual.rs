//! A match as a Rust user would write it at first: a map of names on each side, a map of ranks for each resident, and a queue of
//! programmes with free places. A docket at fault ends it: it doesn't look for the first fault.
use indexmap::IndexMap;
use std::collections::{HashMap, VecDeque};
use std::error::Error;
use std::io::{stdin, stdout, BufWriter, Write};

struct Programme {
    quota: usize,
    list: Vec<usize>,
    next: usize,
    members: usize,
}

struct Resident {
    ranks: HashMap<usize, usize>,
    held: Option<usize>,
}

fn main() -> Result<(), Box<dyn Error>> {
    let mut reader = csv::ReaderBuilder::new().has_headers(false).flexible(true).from_reader(stdin().lock());
    let mut rows = Vec::new();
    let mut programmes: IndexMap<String, Programme> = IndexMap::new();
    let mut residents: IndexMap<String, Resident> = IndexMap::new();
    for row in reader.records() {
        let row = row?;
        match &row[0] {
            "Q" => {
                let programme = Programme { quota: row[2].parse()?, list: Vec::new(), next: 0, members: 0 };
                programmes.insert(row[1].to_string(), programme);
                continue;
            }
            "R" => {
                residents.insert(row[1].to_string(), Resident { ranks: HashMap::new(), held: None });
            }
            "P" => {}
            _ => return Err("unknown kind of row".into()),
        }
        rows.push(row);
    }
    for row in &rows {
        let names = row.iter().skip(2);
        if &row[0] == "P" {
            let list = names.map(|name| residents.get_index_of(name).ok_or("unknown name")).collect::<Result<_, _>>()?;
            programmes.get_mut(&row[1]).ok_or("unknown name")?.list = list;
        } else {
            let places = names.enumerate().map(|(rank, name)| Ok((programmes.get_index_of(name).ok_or("unknown name")?, rank)));
            let ranks = places.collect::<Result<_, Box<dyn Error>>>()?;
            residents.get_mut(&row[1]).ok_or("unknown name")?.ranks = ranks;
        }
    }
    let mut free: VecDeque<usize> = (0..programmes.len()).collect();
    while let Some(p) = free.pop_front() {
        while programmes[p].members < programmes[p].quota && programmes[p].next < programmes[p].list.len() {
            let r = programmes[p].list[programmes[p].next];
            programmes[p].next += 1;
            let Some(rank) = residents[r].ranks.get(&p) else { continue };
            let held = residents[r].held;
            if held.is_some_and(|q| residents[r].ranks[&q] < *rank) {
                continue;
            }
            residents[r].held = Some(p);
            programmes[p].members += 1;
            if let Some(displaced) = held {
                programmes[displaced].members -= 1;
                free.push_back(displaced);
            }
        }
    }
    let mut writer = BufWriter::new(stdout().lock());
    for (name, resident) in &residents {
        match resident.held {
            Some(p) => writeln!(writer, "M,{name},{}", programmes.get_index(p).ok_or("no programme")?.0)?,
            None => writeln!(writer, "U,{name}")?,
        }
    }
    for (name, programme) in &programmes {
        writeln!(writer, "F,{name},{},{}", programme.members, programme.quota)?;
    }
    Ok(writer.flush()?)
}
