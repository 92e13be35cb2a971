//! Where blocks lie, by walking: the members of a stripe are named one after the other, each with the next row of blocks, and a block is looked for among them.

use super::Answer;
use super::format::Format;

#[derive(Clone, Copy, Debug, PartialEq)]
pub struct Array {
    pub members: usize,
    pub stripes: u64,
    pub volume: u8,
    pub method: u8,
    /// How many successive blocks lie in a row on one member.
    pub row: u8,
}

#[derive(Clone, Copy, Debug, PartialEq)]
pub struct Place {
    pub stripe: u64,
    pub member: usize,
}

/// What lies at a place.
#[derive(Clone, Copy, Debug, PartialEq)]
pub enum Owner {
    Parity { lowest: u64 },
    Data { block: u64 },
}

/// The most stripes that an array can have.
pub const MOST_STRIPES: u64 = 68_719_476_736;

impl Array {
    /// Rows 1, 2, 12 and 13 of the refusals, in this order.
    pub fn fits(&self) -> Answer<()> {
        if !(3..=16).contains(&self.members) {
            return Err(1);
        }
        if !(1..=MOST_STRIPES).contains(&self.stripes) {
            return Err(2);
        }
        if ![1, 2, 3].contains(&self.method) {
            return Err(12);
        }
        if ![1, 2, 4, 8, 16, 32, 64, 128].contains(&self.row)
            || self.stripes % self.row_length() != 0
        {
            return Err(13);
        }
        Ok(())
    }

    pub fn stripe_fits(&self, stripe: u64) -> Answer<()> {
        self.fits()?;
        if stripe < self.stripes {
            Ok(())
        } else {
            Err(3)
        }
    }

    pub fn block_fits(&self, block: u64) -> Answer<()> {
        self.fits()?;
        if block < self.blocks() {
            Ok(())
        } else {
            Err(3)
        }
    }

    pub fn place_fits(&self, stripe: u64, member: usize) -> Answer<()> {
        self.stripe_fits(stripe)?;
        if member < self.members {
            Ok(())
        } else {
            Err(5)
        }
    }

    /// What its blocks are.
    pub fn format(&self) -> Format {
        Format::of(self.method)
    }

    /// How many bytes a stripe has in memory.
    pub fn stripe_length(&self) -> usize {
        self.members * self.format().block()
    }

    /// How many members of a stripe hold data.
    pub fn data_members(&self) -> usize {
        self.members - 1
    }

    pub fn blocks(&self) -> u64 {
        self.stripes * self.data_members() as u64
    }

    fn row_length(&self) -> u64 {
        self.row.into()
    }

    /// How many blocks a group has: the stripes after each other whose parity lies on one member, as many as a row is long.
    fn blocks_of_group(&self) -> u64 {
        self.data_members() as u64 * self.row_length()
    }

    pub fn parity_member(&self, stripe: u64) -> usize {
        let group = stripe / self.row_length();
        (group % self.members as u64) as usize
    }

    /// What each member of a stripe holds, from member 0 on. In a group each member with data has a row of blocks, and each stripe has one of them.
    pub fn owners(&self, stripe: u64) -> Vec<Owner> {
        let (group, into_row) = (stripe / self.row_length(), stripe % self.row_length());
        let parity = self.parity_member(stripe);
        let lowest = group * self.blocks_of_group() + into_row;
        let mut next = lowest;
        let mut owners = Vec::with_capacity(self.members);
        for member in 0..self.members {
            if member == parity {
                owners.push(Owner::Parity { lowest });
            } else {
                owners.push(Owner::Data { block: next });
                next += self.row_length();
            }
        }
        owners
    }

    /// The blocks of a stripe, the lowest first.
    pub fn blocks_of(&self, stripe: u64) -> Vec<u64> {
        let owners = self.owners(stripe).into_iter();
        let blocks = owners.filter_map(|owner| match owner {
            Owner::Data { block } => Some(block),
            Owner::Parity { .. } => None,
        });
        blocks.collect()
    }

    /// The place of a block, looked for in one stripe of its group after the other.
    pub fn place(&self, block: u64) -> Answer<Place> {
        self.block_fits(block)?;
        let first = self.group_by_halving(block) * self.row_length();
        let wanted = Owner::Data { block };
        let mut places = (first..first + self.row_length()).filter_map(|stripe| {
            let member = self
                .owners(stripe)
                .iter()
                .position(|owner| *owner == wanted);
            member.map(|member| Place { stripe, member })
        });
        Ok(places.next().expect("a block is in its group"))
    }

    pub fn owner(&self, stripe: u64, member: usize) -> Answer<Owner> {
        self.place_fits(stripe, member)?;
        Ok(self.owners(stripe)[member])
    }

    /// The last group whose lowest block is not past `block`.
    fn group_by_halving(&self, block: u64) -> u64 {
        let (mut low, mut past) = (0, self.stripes / self.row_length());
        while past - low > 1 {
            let middle = (low + past) / 2;
            if middle * self.blocks_of_group() <= block {
                low = middle;
            } else {
                past = middle;
            }
        }
        low
    }
}
