//! Reading a docket from standard input by csv and indexmap, and writing a sheet. A docket at fault ends the program: it doesn't
//! look for the first fault.
use indexmap::IndexSet;
use std::error::Error;
use std::io::{stdin, Write};

pub type Outcome<T> = Result<T, Box<dyn Error>>;

/// Names by number, and for each member its list of the other side's numbers, best first.
#[derive(Default)]
pub struct Side {
    pub names: IndexSet<Vec<u8>>,
    pub lists: Vec<Vec<u32>>,
}

#[derive(Default)]
pub struct Docket {
    pub programmes: Side,
    pub residents: Side,
    pub quotas: Vec<u32>,
}

fn number(names: &IndexSet<Vec<u8>>, name: &[u8]) -> Outcome<u32> {
    names.get_index_of(name).map(|n| n as u32).ok_or_else(|| "unknown name".into())
}

/// A record of the same fields. A clone would keep as much room as the longest record before it.
fn copy(row: &csv::ByteRecord) -> csv::ByteRecord {
    row.iter().collect()
}

pub fn read() -> Outcome<Docket> {
    let mut reader = csv::ReaderBuilder::new().has_headers(false).flexible(true).from_reader(stdin().lock());
    let mut rows = Vec::new();
    let mut docket = Docket::default();
    let mut row = csv::ByteRecord::new();
    while reader.read_byte_record(&mut row)? {
        match &row[0] {
            b"Q" => {
                docket.programmes.names.insert(row[1].to_vec());
                docket.quotas.push(std::str::from_utf8(&row[2])?.parse()?);
            }
            b"R" => {
                docket.residents.names.insert(row[1].to_vec());
                rows.push(copy(&row));
            }
            b"P" => rows.push(copy(&row)),
            _ => return Err("unknown kind of row".into()),
        }
    }
    docket.programmes.lists = vec![Vec::new(); docket.programmes.names.len()];
    docket.residents.lists = vec![Vec::new(); docket.residents.names.len()];
    for row in &rows {
        let of_programme = &row[0] == b"P";
        let (owners, others) = if of_programme {
            (&mut docket.programmes, &docket.residents.names)
        } else {
            (&mut docket.residents, &docket.programmes.names)
        };
        let owner = number(&owners.names, &row[1])?;
        owners.lists[owner as usize] = row.iter().skip(2).map(|name| number(others, name)).collect::<Outcome<_>>()?;
    }
    Ok(docket)
}

/// For each list the numbers with their places, sorted by number.
pub fn rank_tables(lists: &[Vec<u32>]) -> Vec<Vec<(u32, u32)>> {
    let table = |list: &Vec<u32>| {
        let mut table: Vec<_> = list.iter().copied().zip(0..).collect();
        table.sort_unstable();
        table
    };
    lists.iter().map(table).collect()
}

pub fn rank(table: &[(u32, u32)], number: u32) -> Option<u32> {
    table.binary_search_by_key(&number, |entry| entry.0).ok().map(|at| table[at].1)
}

/// The rows of each resident and then of each programme, where this is whom each resident is matched with.
pub fn write_sheet(docket: &Docket, matched: &[Option<u32>], writer: &mut impl Write) -> Outcome<()> {
    let mut filled = vec![0; docket.quotas.len()];
    for (name, matched) in docket.residents.names.iter().zip(matched) {
        match matched {
            Some(p) => {
                filled[*p as usize] += 1;
                writer.write_all(b"M,")?;
                writer.write_all(name)?;
                writer.write_all(b",")?;
                writer.write_all(&docket.programmes.names[*p as usize])?;
            }
            None => {
                writer.write_all(b"U,")?;
                writer.write_all(name)?;
            }
        }
        writer.write_all(b"\n")?;
    }
    for (p, name) in docket.programmes.names.iter().enumerate() {
        writer.write_all(b"F,")?;
        writer.write_all(name)?;
        writeln!(writer, ",{},{}", filled[p], docket.quotas[p])?;
    }
    Ok(())
}
