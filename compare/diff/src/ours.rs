//! The one place that knows the names and answers of the project's own source.
//!
//! The crate `ours` holds that source, stripped of its contracts, when it is
//! built with `OURS_RS` set to the stripped file. The functions below turn
//! its answers into this crate's; nothing else needs to change when they do.

use crate::{names::NameSide, side::Side};

#[cfg(not(feature = "ours"))]
pub fn side() -> Option<Side> {
    None
}

#[cfg(feature = "ours")]
pub fn side() -> Option<Side> {
    Some(Side { name: "ours", read: fitted::read, write: fitted::write })
}

#[cfg(not(feature = "ours"))]
pub fn names() -> Option<NameSide> {
    None
}

#[cfg(feature = "ours")]
pub fn names() -> Option<NameSide> {
    Some(NameSide { name: "ours", call: fitted::on_names })
}

#[cfg(feature = "ours")]
mod fitted {
    use crate::{
        names::{Ask, Said},
        side::{Read, Wrote},
    };
    use ours::{reader::Answer, wire::Refused};

    pub fn read(table: &[u8], out: &mut [u8]) -> Read {
        match ours::reader::read(table, out) {
            Ok(Answer::Schema(length)) => Read::Schema(length),
            Ok(Answer::Errors(length)) => Read::Errors(length),
            Err(refused) => Read::Refused(refused.refusal.number(), refused.offset),
        }
    }

    pub fn write(table: &[u8], out: &mut [u8]) -> Wrote {
        match ours::writer::write(table, out) {
            Ok(length) => Wrote::Text(length),
            Err(refused) => Wrote::Refused(refused.refusal.number(), refused.offset),
        }
    }

    pub fn on_names(ask: Ask, out: &mut [u8], a: &[u8], b: &[u8]) -> Said {
        match ask {
            Ask::Snake => said(ours::names::snake_case(out, a), Said::Written),
            Ask::Camel => said(ours::names::camel_case(out, a), Said::Written),
            Ask::Pascal => said(ours::names::pascal_case(out, a), Said::Written),
            Ask::Join => said(ours::names::join(out, a, b), Said::Written),
            Ask::Text => said(ours::names::text(out, a), Said::Written),
            Ask::Cmp => said(ours::names::cmp(a, b), Said::Order),
            Ask::Eq => said(ours::names::eq(a, b), Said::Is),
            Ask::Survives => said(ours::names::survives(a), Said::Is),
            Ask::Relativize => {
                said(ours::names::relativize(out, a, b), |r| Said::Relative(r.size, r.up))
            }
        }
    }

    fn said<T>(answer: Result<T, Refused>, answered: impl FnOnce(T) -> Said) -> Said {
        match answer {
            Ok(value) => answered(value),
            Err(refused) => Said::Refused(refused.refusal.number(), refused.offset),
        }
    }
}
