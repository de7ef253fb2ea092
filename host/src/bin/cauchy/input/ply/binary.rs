//! The values of a binary PLY file.
use super::Values;
use super::header::{Element, Order, Role, Scalar};
use crate::failure::{Failure, Result};
use crate::figures::short;
use crate::input::source::Source;
use crate::input::words::{NO_NUMBER, in_range};

pub struct Binary<'s, 'a> {
    source: &'s mut Source<'a>,
    order: Order,
    /// The element that is read, counted from 1.
    role: Role,
    number: u64,
    /// The first byte of the value that was given last.
    at: u64,
}

impl<'s, 'a> Binary<'s, 'a> {
    pub fn new(source: &'s mut Source<'a>, order: Order) -> Binary<'s, 'a> {
        Binary { source, order, role: Role::Other, number: 0, at: 0 }
    }

    /// The bits of the next value, with zeros above them.
    #[inline]
    fn bits(&mut self, scalar: Scalar) -> Result<u64> {
        self.at = self.source.given();
        let Some(bytes) = self.source.take(scalar.size())? else { return Err(self.ends()) };
        let bits = match self.order {
            Order::LowestFirst => bytes.iter().rev().fold(0, |bits, byte| bits << 8 | u64::from(*byte)),
            Order::HighestFirst => bytes.iter().fold(0, |bits, byte| bits << 8 | u64::from(*byte)),
        };
        Ok(bits)
    }

    fn ends(&self) -> Failure {
        self.fault("the file ends in it".to_string())
    }
}

impl Values for Binary<'_, '_> {
    fn begin(&mut self, element: &Element, number: u64) -> Result<()> {
        (self.role, self.number) = (element.role, number);
        Ok(())
    }

    fn number(&mut self, scalar: Scalar) -> Result<f64> {
        let bits = self.bits(scalar)?;
        match float(bits, scalar) {
            x if in_range(x) => Ok(x),
            x => Err(self.fault(format!("a coordinate, {}, {NO_NUMBER}", short(x)))),
        }
    }

    fn whole(&mut self, scalar: Scalar) -> Result<u64> {
        let bits = self.bits(scalar)?;
        let n = signed(bits, scalar);
        u64::try_from(n).map_err(|_| self.fault(format!("{n} is not a whole number from 0")))
    }

    fn pass(&mut self, scalar: Scalar, values: u64) -> Result<()> {
        self.at = self.source.given();
        // a count has at most 32 bits, and a value 8 bytes
        if self.source.pass(values * scalar.size() as u64)? { Ok(()) } else { Err(self.ends()) }
    }

    fn end(&mut self) -> Result<()> {
        Ok(())
    }

    fn end_of_file(&mut self) -> Result<()> {
        let at = self.source.given();
        match self.source.take(1)? {
            None => Ok(()),
            Some(_) => {
                let what = "the elements have ended, and the file has not";
                Err(Failure::of_byte(self.source.path(), at, what))
            }
        }
    }

    fn fault(&self, what: String) -> Failure {
        let element = match self.role {
            Role::Vertex => "vertex",
            Role::Face => "face",
            Role::Other => "element",
        };
        Failure::of_byte(self.source.path(), self.at, format!("{element} {}: {what}", self.number))
    }
}

/// A number by its bits.
fn float(bits: u64, scalar: Scalar) -> f64 {
    match scalar {
        Scalar::F32 => f64::from(f32::from_bits(bits as u32)),
        Scalar::F64 => f64::from_bits(bits),
        _ => signed(bits, scalar) as f64,
    }
}

/// A whole number by its bits.
fn signed(bits: u64, scalar: Scalar) -> i64 {
    match scalar {
        Scalar::I8 => i64::from(bits as i8),
        Scalar::I16 => i64::from(bits as i16),
        Scalar::I32 => i64::from(bits as i32),
        _ => bits as i64,
    }
}
