//! A lean match: reads a docket, runs deferred acceptance with rank tables on one thread, and writes the sheet.
#[path = "../docket.rs"]
mod docket;

use docket::{rank, rank_tables, read, write_sheet, Docket, Outcome};
use std::io::{stdout, BufWriter, Write};

/// Whom each resident ends with.
fn matched(docket: &Docket) -> Vec<Option<u32>> {
    let ranks = rank_tables(&docket.residents.lists);
    let mut held: Vec<Option<(u32, u32)>> = vec![None; ranks.len()];
    let mut next = vec![0; docket.quotas.len()];
    let mut out = vec![0; docket.quotas.len()];
    let mut work: Vec<usize> = (0..docket.quotas.len()).collect();
    while let Some(p) = work.pop() {
        let list = &docket.programmes.lists[p];
        while out[p] < docket.quotas[p] && next[p] < list.len() {
            let r = list[next[p]] as usize;
            next[p] += 1;
            let Some(rank) = rank(&ranks[r], p as u32) else { continue };
            match held[r] {
                Some((_, best)) if best < rank => {}
                before => {
                    held[r] = Some((p as u32, rank));
                    out[p] += 1;
                    if let Some((displaced, _)) = before {
                        out[displaced as usize] -= 1;
                        work.push(displaced as usize);
                    }
                }
            }
        }
    }
    held.into_iter().map(|held| held.map(|(p, _)| p)).collect()
}

fn main() -> Outcome<()> {
    let docket = read()?;
    let held = matched(&docket);
    let mut writer = BufWriter::new(stdout().lock());
    write_sheet(&docket, &held, &mut writer)?;
    Ok(writer.flush()?)
}
