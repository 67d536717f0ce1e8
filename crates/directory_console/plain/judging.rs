//! The verdict on a world.

use crate::output::Output;
use crate::world::World;
use crate::{dump, json, verdict};

/// What is said of a world's dump, written and read again, by a program that reads dumps: `ok`, or a fault's number and what is at fault.
pub fn judged(world: &World) -> String {
    let mut dumped = Output::default();
    dumped.dump(world);
    match dump::read_dump(&dumped.0) {
        Err(json::NoValue) => "971".to_string(),
        Ok(None) => "972".to_string(),
        Ok(Some((dump, silos))) => match verdict::verdict(&dump, &silos) {
            None => "ok".to_string(),
            Some(verdict::Fault::RingDiffers(silo)) => format!("973 {silo}"),
            Some(verdict::Fault::MissingFirm(grain)) => format!("974 {grain}"),
            Some(verdict::Fault::Stranger(grain)) => format!("975 {grain}"),
            Some(verdict::Fault::TwoFirm(grain)) => format!("976 {grain}"),
            Some(verdict::Fault::WrongRange(silo)) => format!("977 {silo}"),
        },
    }
}
