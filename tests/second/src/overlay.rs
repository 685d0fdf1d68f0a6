//! A plate's picture over a camera's: plate file and camera picture in, the mixed picture out.

use crate::camera::camera;
use crate::drawn::drawn;
use crate::mixing::mixed;
use crate::ppm::ppm;
use crate::refusal::Refusal;
use std::fmt;

/// Why there is no mixed picture.
#[derive(Clone, Copy, Debug, PartialEq, Eq)]
pub enum NotOverlaid {
    Plate(Refusal),
    Camera,
}

impl fmt::Display for NotOverlaid {
    fn fmt(&self, f: &mut fmt::Formatter) -> fmt::Result {
        match self {
            NotOverlaid::Plate(refusal) => refusal.fmt(f),
            NotOverlaid::Camera => f.write_str("the camera picture does not fit the plate"),
        }
    }
}

/// The plate is judged first, as the printer judges it: 15, 14, 1, 2, the setting, 11.
pub fn overlay(plate: &[u8], camera_file: &[u8]) -> Result<Vec<u8>, NotOverlaid> {
    let (s, cells) = drawn(plate).map_err(NotOverlaid::Plate)?;
    let colours = camera(camera_file, s.n, s.v).ok_or(NotOverlaid::Camera)?;
    Ok(ppm(s.n, s.v, &mixed(&cells, &colours)))
}
