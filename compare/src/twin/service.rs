//! The two services, from docs/SERVICES.md.

pub const OUT_OF_RANGE: u64 = 1 << 63;
pub const MALFORMED: u64 = OUT_OF_RANGE + 1;

/// A service, whose default is the fresh one.
pub trait Service: Default {
    fn clear(&mut self);
    fn apply(&mut self, operation: u64) -> u64;
}

/// The bits of an operation from the lowest of a field on.
fn field(operation: u64, lowest: u32, bits: u32) -> u64 {
    operation >> lowest & ((1 << bits) - 1)
}

struct Curve {
    number: u64,
    low: u64,
    high: u64,
    offset: u64,
    slope: u64,
}

/// Curves in the order of loading.
#[derive(Default)]
pub struct Rating {
    curves: Vec<Curve>,
}

impl Rating {
    fn load(&mut self, operation: u64) -> u64 {
        let curve = Curve {
            number: field(operation, 59, 3),
            low: field(operation, 45, 14),
            high: field(operation, 31, 14),
            offset: field(operation, 11, 20),
            slope: field(operation, 0, 11),
        };
        if curve.low > curve.high {
            return MALFORMED;
        }
        self.curves.retain(|held| held.number != curve.number);
        self.curves.push(curve);
        0
    }

    fn read(&self, stage: u64) -> u64 {
        let deciding = self.curves.iter().rev().find(|c| c.low <= stage && stage <= c.high);
        deciding.map_or(OUT_OF_RANGE, |c| c.offset + c.slope * (stage - c.low))
    }
}

impl Service for Rating {
    fn clear(&mut self) {
        self.curves.clear();
    }

    fn apply(&mut self, operation: u64) -> u64 {
        match field(operation, 62, 2) {
            1 => self.load(operation),
            2 if field(operation, 0, 48) == 0 => self.read(field(operation, 48, 14)),
            _ => MALFORMED,
        }
    }
}

#[derive(Default)]
pub struct Allotment {
    balances: [u32; 16],
}

impl Service for Allotment {
    fn clear(&mut self) {
        self.balances = [0; 16];
    }

    fn apply(&mut self, operation: u64) -> u64 {
        let balance = &mut self.balances[field(operation, 58, 4) as usize];
        let amount = field(operation, 26, 32) as u32;
        let after = match field(operation, 62, 2) {
            _ if field(operation, 0, 26) != 0 => return MALFORMED,
            1 => balance.checked_add(amount),
            2 => balance.checked_sub(amount),
            _ => return MALFORMED,
        };
        let Some(after) = after else {
            return OUT_OF_RANGE;
        };
        *balance = after;
        after.into()
    }
}
