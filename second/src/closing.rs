//! Closing: the rules of closed tables, one after another, until nothing is struck.

use crate::description::{Description, KindLine};
use crate::relations::{composition, converse, has, lies_within, A, E, S};
use crate::table::Table;

/// The largest closed table within the table, or none if that has an empty cell.
pub fn closed(description: &Description, lent: &Table) -> Option<Table> {
    let mut table = lent.clone();
    loop {
        let before = table.clone();
        rule_1(&mut table);
        rule_2(&mut table);
        rule_3(&mut table);
        rule_4(description, &mut table);
        rule_5(description, &mut table);
        rule_6(description, &mut table);
        rule_7(description, &mut table);
        if table.has_empty_cell() {
            return None;
        }
        if table == before {
            return Some(table);
        }
    }
}

/// (p, p) holds nothing but E.
fn rule_1(table: &mut Table) {
    for p in 0..table.boards {
        table.keep(p, p, E);
    }
}

/// (q, p) is the converse of (p, q).
fn rule_2(table: &mut Table) {
    for p in 0..table.boards {
        for q in 0..table.boards {
            table.keep(q, p, converse(table.at(p, q)));
        }
    }
}

/// (p, r) lies within the composition of (p, q) with (q, r).
fn rule_3(table: &mut Table) {
    for p in 0..table.boards {
        for q in 0..table.boards {
            for r in 0..table.boards {
                table.keep(p, r, composition(table.at(p, q), table.at(q, r)));
            }
        }
    }
}

/// A relation line's cell lies within its set.
fn rule_4(description: &Description, table: &mut Table) {
    for line in &description.relation_lines {
        table.keep(line.p, line.q, line.set);
    }
}

/// (p, yi) lies within {A}, and (yi, yj) within {S} for i different from j.
fn rule_5(description: &Description, table: &mut Table) {
    for line in &description.kind_lines {
        for (i, &way) in line.ways.iter().enumerate() {
            table.keep(line.p, way, A);
            for (j, &other) in line.ways.iter().enumerate() {
                if i != j {
                    table.keep(way, other, S);
                }
            }
        }
    }
}

/// Both parts of rule 6, for every kind line and every board z.
fn rule_6(description: &Description, table: &mut Table) {
    for line in &description.kind_lines {
        for z in 0..table.boards {
            rule_6_panel(line, z, table);
            rule_6_last_way(line, z, table);
        }
    }
}

/// If no (yi, z) has E or A, then (p, z) lacks A.
fn rule_6_panel(line: &KindLine, z: usize, table: &mut Table) {
    if !line.ways.iter().any(|&way| has(table.at(way, z), E | A)) {
        table.strike(line.p, z, A);
    }
}

/// If (p, z) lies within {A} and every way but yi lacks both E and A towards z,
/// then (yi, z) lies within {E, A}.
fn rule_6_last_way(line: &KindLine, z: usize, table: &mut Table) {
    for (i, &way) in line.ways.iter().enumerate() {
        let others_lack = line.ways.iter().enumerate().all(|(j, &other)| j == i || !has(table.at(other, z), E | A));
        if lies_within(table.at(line.p, z), A) && others_lack {
            table.keep(way, z, E | A);
        }
    }
}

/// For two kind lines on p and q, the three parts of rule 7.
fn rule_7(description: &Description, table: &mut Table) {
    for first in &description.kind_lines {
        for second in &description.kind_lines {
            if first.code != second.code || first.ways.len() != second.ways.len() {
                table.strike(first.p, second.p, E);
            } else {
                rule_7_agreeing(first, second, table);
            }
        }
    }
}

/// The lines agree. If some pair of ways in the same position lacks E, (p, q) lacks E.
/// If (p, q) lies within {E}, each such pair lies within {E}.
fn rule_7_agreeing(first: &KindLine, second: &KindLine, table: &mut Table) {
    for (&way, &other) in first.ways.iter().zip(&second.ways) {
        if !has(table.at(way, other), E) {
            table.strike(first.p, second.p, E);
        }
    }
    if lies_within(table.at(first.p, second.p), E) {
        for (&way, &other) in first.ways.iter().zip(&second.ways) {
            table.keep(way, other, E);
        }
    }
}
