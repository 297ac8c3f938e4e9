//! Tiles loaded in one form and stored in the other (request Two). What memory
//! has to hold after it is written here element by element, without the second
//! program.

use crate::random::Random;
use crate::states::cases::{bench_of, moved_rows};
use crate::states::machines::{fitting_mtype, fitting_mtypes, limits, set_size, SIZES};
use crate::suite::{check_step, each_case, Context, Outcome};
use model::{sew, tile_size, Form, Kind, Lengths, Machine, Row, Size, LISTING, SMALLER};

/// Every machine, with loads and stores of the same matrix and width in every
/// pair of forms: the same form copies the tile, the other one transposes it.
pub fn transposed_tiles(context: &mut Context) -> Outcome {
    let cases: Vec<(Lengths, (&Row, &Row))> = model::permitted_lengths()
        .into_iter()
        .flat_map(|lengths| pairs_of_rows().into_iter().map(move |pair| (lengths, pair)))
        .filter(|(lengths, (load, _))| !fitting_mtypes(load.kind, lengths.2).is_empty())
        .collect();
    let count = 2 * cases.len() as u64;
    each_case(context, "transposed tiles", count, |case, random, tally| {
        let (lengths, (load, store)) = cases[case as usize % cases.len()];
        let machine = machine_for_load(random, lengths, load.kind);
        let [from, to] = [load, store].map(|row| Laid::new(random, row.kind, &machine));
        let mut lent = bench_of(random, &machine);
        lent.memory = random.bytes(from.end.max(to.end) as usize);
        let expected = moved(&machine, &from, &to, &lent.memory);
        for (row, laid) in [(load, &from), (store, &to)] {
            lent.set_scalar(1, laid.address as u64);
            lent.set_scalar(2, laid.stride as u64);
            let operands = [("md", 1), ("ms3", 1), ("rs1", 1), ("rs2", 2)];
            let number;
            (number, lent) = check_step(model::assemble(row.name, &operands), &lent, tally)?;
            if number != 0 {
                return Err(format!("{} gives {number} on {machine:?}", row.name));
            }
        }
        if lent.memory != expected {
            return Err(format!("{}, then {} on {machine:?}", load.name, store.name));
        }
        Ok(())
    })
}

/// Every load with every store of its matrix and width.
fn pairs_of_rows() -> Vec<(&'static Row, &'static Row)> {
    let mut pairs = Vec::new();
    for load in &LISTING {
        for store in &LISTING {
            match (load.kind, store.kind) {
                (Kind::Load(matrix, width, _), Kind::Store(other, same, _))
                    if (matrix, width) == (other, same) =>
                {
                    pairs.push((load, store))
                }
                _ => {}
            }
        }
    }
    pairs
}

/// A machine on which a load is done, with no size of 0.
fn machine_for_load(random: &mut Random, lengths: Lengths, kind: Kind) -> Machine {
    let mtype = fitting_mtype(random, kind, lengths.2);
    let mut machine = Machine { mtype, ..Machine::of(lengths, SMALLER) };
    let limits = limits(random, &machine, sew(mtype));
    for (size, limit) in SIZES.into_iter().zip(limits) {
        let limit = limit as u64;
        let value = if random.chance(50) { limit } else { random.range(1, limit) };
        set_size(&mut machine, size, value as i128);
    }
    machine
}

/// A tile in memory, no byte of it in two rows.
struct Laid {
    address: i128,
    stride: i128,
    end: i128,
    size_of_rows: Size,
    size_of_columns: Size,
    form: Form,
    bytes: i128,
}

impl Laid {
    fn new(random: &mut Random, kind: Kind, machine: &Machine) -> Laid {
        let (Kind::Load(matrix, width, form) | Kind::Store(matrix, width, form)) = kind else {
            unreachable!("a load or store");
        };
        let (rows, row_bytes) = moved_rows(kind, machine).expect("a load or store");
        let step = row_bytes + random.below(5) as i128;
        let spread = (rows - 1) * step;
        let first = random.below(40) as i128;
        let (address, stride) =
            if random.chance(50) { (first, step) } else { (first + spread, -step) };
        let end = first + spread + row_bytes;
        let (size_of_rows, size_of_columns) = model::shape(matrix);
        Laid { address, stride, end, size_of_rows, size_of_columns, form, bytes: width / 8 }
    }

    /// Where element (i, j) of the register's tile starts.
    fn element(&self, i: i128, j: i128) -> usize {
        let (row, column) = match self.form {
            Form::Plain => (i, j),
            Form::Transposed => (j, i),
        };
        (self.address + row * self.stride + column * self.bytes) as usize
    }
}

/// Memory with each element of one tile copied to its place in the other.
fn moved(machine: &Machine, from: &Laid, to: &Laid, memory: &[u8]) -> Vec<u8> {
    let mut after = memory.to_vec();
    let bytes = from.bytes as usize;
    for i in 0..tile_size(machine, from.size_of_rows) {
        for j in 0..tile_size(machine, from.size_of_columns) {
            let (old, new) = (from.element(i, j), to.element(i, j));
            after[new..new + bytes].copy_from_slice(&memory[old..old + bytes]);
        }
    }
    after
}
