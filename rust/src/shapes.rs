//! Texture coordinates and corners.

use crate::raw::{self, Corners, Vector2f, Vector3f};
use crate::refusal::{Refusal, checked};

/// Four corners (top left, top right, bottom left, bottom right) of three layers of a pair (u, v).
pub type Uvs = [[[f32; 2]; 3]; 4];

/// The texture coordinates of `layers`, eight numbers a layer (u and v of each corner), each under its SRT of `srts`,
/// five numbers each (translate u, v, rotate, scale u, v). Refusals 8, 12.
///
/// ```
/// // The unit square, moved by a quarter and scaled by two in u about (0.5, 0.5).
/// let square = [0.0, 0.0, 1.0, 0.0, 0.0, 1.0, 1.0, 1.0];
/// let block = dovebolt::uvs(&square, &[0.25, 0.0, 0.0, 2.0, 1.0])?;
/// assert_eq!(block[1][0], [1.75, 0.0]); // top right of layer 0
/// assert_eq!(block[1][1], [1.0, 0.0]); // a layer that is missing is the unit square
/// # Ok::<(), dovebolt::Refusal>(())
/// ```
pub fn uvs(layers: &[f32], srts: &[f32]) -> Result<Uvs, Refusal> {
    let mut out = Uvs::default();
    uvs_into(layers, srts, out.as_flattened_mut().as_flattened_mut())?;
    Ok(out)
}

/// The same into a lent output, which must be 24 long. Refusals 8, 12, 13.
///
/// ```
/// let mut out = [0.0; 24];
/// dovebolt::uvs_into(&[], &[], &mut out)?;
/// assert_eq!(out[6..8], [1.0, 0.0]);
/// assert_eq!(dovebolt::uvs_into(&[], &[], &mut out[1..]), Err(dovebolt::Refusal::OutputLength));
/// # Ok::<(), dovebolt::Refusal>(())
/// ```
pub fn uvs_into(layers: &[f32], srts: &[f32], out: &mut [f32]) -> Result<(), Refusal> {
    // SAFETY: each pointer has the length of its slice, and `out` is lent alone.
    checked(unsafe {
        raw::menu_uvs(
            layers.as_ptr(),
            layers.len(),
            srts.as_ptr(),
            srts.len(),
            out.as_mut_ptr(),
            out.len(),
        )
    })
}

// The calls that take vectors are inlined: a vector then goes over from where it lies. As a parameter of a function of its own it is two floats,
// put together in memory for C and read back by a load that waits for both.
#[inline]
fn placed(answer: raw::Placed) -> Result<Corners, Refusal> {
    checked(answer.refusal)?;
    Ok(answer.corners)
}

/// The corners of a pane of this size about its pivot `center`, turned by three angles in degrees. Origins are 0 centre,
/// 1 left or top, 2 right or bottom. Refusals 7, 8, 12.
///
/// ```
/// use dovebolt::{Refusal, Vector2f, Vector3f, corners};
///
/// let center = Vector2f { x: 10.0, y: 20.0 };
/// let size = Vector2f { x: 4.0, y: 2.0 };
/// let still = Vector3f::default();
/// assert_eq!(corners(center, size, 0, 0, still)?.top_left, Vector2f { x: 8.0, y: 19.0 });
/// assert_eq!(corners(center, size, 1, 1, still)?.top_left, center);
/// assert_eq!(corners(center, size, 3, 0, still), Err(Refusal::NoSuch));
/// # Ok::<(), dovebolt::Refusal>(())
/// ```
#[inline]
pub fn corners(
    center: Vector2f,
    size: Vector2f,
    horizontal: u8,
    vertical: u8,
    rotation: Vector3f,
) -> Result<Corners, Refusal> {
    // SAFETY: numbers only.
    placed(unsafe { raw::menu_corners(center, size, horizontal, vertical, rotation) })
}

/// Corners moved by `delta`. Refusal 8.
///
/// ```
/// use dovebolt::{Corners, Vector2f};
///
/// let moved = dovebolt::translate(Corners::default(), Vector2f { x: 1.0, y: 2.0 })?;
/// assert_eq!(moved.bottom_right, Vector2f { x: 1.0, y: 2.0 });
/// # Ok::<(), dovebolt::Refusal>(())
/// ```
#[inline]
pub fn translate(corners: Corners, delta: Vector2f) -> Result<Corners, Refusal> {
    // SAFETY: numbers only.
    placed(unsafe { raw::menu_translate(corners, delta) })
}

/// A point about `center`, turned by three angles in degrees. Refusals 8, 12.
///
/// ```
/// use dovebolt::{Refusal, Vector2f, Vector3f, rotate_point};
///
/// let point = Vector2f { x: 1.0, y: 0.0 };
/// let center = Vector2f { x: 10.0, y: 20.0 };
/// assert_eq!(rotate_point(point, center, Vector3f::default())?, Vector2f { x: 11.0, y: 20.0 });
/// let steep = Vector3f { z: 3600.5, ..Vector3f::default() };
/// assert_eq!(rotate_point(point, center, steep), Err(Refusal::Angle));
/// # Ok::<(), dovebolt::Refusal>(())
/// ```
#[inline]
pub fn rotate_point(
    point: Vector2f,
    center: Vector2f,
    rotation: Vector3f,
) -> Result<Vector2f, Refusal> {
    // SAFETY: numbers only.
    let answer = unsafe { raw::menu_rotate_point(point, center, rotation) };
    checked(answer.refusal)?;
    Ok(answer.point)
}
