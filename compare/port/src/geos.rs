//! GEOS's clip by rectangle, through its C API: only what the benchmark needs of it.

use compare::judge::{Kind, Rect};
use std::ffi::{c_char, c_double, c_int, c_uint, c_void, CStr};
use std::ptr::{null_mut, NonNull};

type Handle = *mut c_void;
type Pointer = *mut c_void;

#[rustfmt::skip]
extern "C" {
    fn GEOSversion() -> *const c_char;
    fn GEOS_init_r() -> Handle;
    fn GEOS_finish_r(handle: Handle);
    fn GEOSCoordSeq_create_r(handle: Handle, size: c_uint, dimensions: c_uint) -> Pointer;
    fn GEOSCoordSeq_setXY_r(handle: Handle, sequence: Pointer, at: c_uint, x: c_double, y: c_double) -> c_int;
    fn GEOSGeom_createLineString_r(handle: Handle, sequence: Pointer) -> Pointer;
    fn GEOSGeom_createLinearRing_r(handle: Handle, sequence: Pointer) -> Pointer;
    fn GEOSGeom_createPolygon_r(handle: Handle, shell: Pointer, holes: *mut Pointer, count: c_uint) -> Pointer;
    fn GEOSClipByRect_r(handle: Handle, geometry: Pointer, left: c_double, low: c_double, right: c_double, high: c_double) -> Pointer;
    fn GEOSGeom_destroy_r(handle: Handle, geometry: Pointer);
    fn GEOSisValid_r(handle: Handle, geometry: Pointer) -> c_char;
    fn GEOSArea_r(handle: Handle, geometry: Pointer, area: *mut c_double) -> c_int;
    fn GEOSLength_r(handle: Handle, geometry: Pointer, length: *mut c_double) -> c_int;
}

/// The version of the library.
pub fn version() -> String {
    unsafe { CStr::from_ptr(GEOSversion()) }.to_string_lossy().into_owned()
}

/// A drawing as GEOS holds it.
pub struct Geometry {
    handle: Handle,
    kind: Kind,
    geometry: NonNull<c_void>,
}

impl Geometry {
    /// A polygon without holes, or a line string.
    pub fn new(kind: Kind, path: &[i64]) -> Self {
        let first = if kind == Kind::Closed { &path[..2] } else { &[] };
        let points: Vec<&[i64]> = path.chunks(2).chain(first.chunks(2)).collect();
        unsafe {
            let handle = GEOS_init_r();
            let sequence = GEOSCoordSeq_create_r(handle, points.len() as c_uint, 2);
            for (i, p) in points.iter().enumerate() {
                GEOSCoordSeq_setXY_r(handle, sequence, i as c_uint, p[0] as c_double, p[1] as c_double);
            }
            let geometry = match kind {
                Kind::Open => GEOSGeom_createLineString_r(handle, sequence),
                Kind::Closed => {
                    let ring = GEOSGeom_createLinearRing_r(handle, sequence);
                    GEOSGeom_createPolygon_r(handle, ring, null_mut(), 0)
                }
            };
            Geometry { handle, kind, geometry: NonNull::new(geometry).expect("GEOS takes the drawing") }
        }
    }

    /// Whether GEOS promises something of it: a polygon's outline does not cross or touch itself.
    pub fn is_valid(&self) -> bool {
        unsafe { GEOSisValid_r(self.handle, self.geometry.as_ptr()) == 1 }
    }

    /// What lies in the rectangle; dropping it frees it.
    pub fn clip(&self, [left, top, right, bottom]: Rect) -> Clipped<'_> {
        let [left, top, right, bottom] = [left, top, right, bottom].map(|side| side as c_double);
        let clipped = unsafe { GEOSClipByRect_r(self.handle, self.geometry.as_ptr(), left, top, right, bottom) };
        Clipped { of: self, geometry: NonNull::new(clipped).expect("GEOS clips the drawing") }
    }
}

impl Drop for Geometry {
    fn drop(&mut self) {
        unsafe {
            GEOSGeom_destroy_r(self.handle, self.geometry.as_ptr());
            GEOS_finish_r(self.handle);
        }
    }
}

pub struct Clipped<'a> {
    of: &'a Geometry,
    geometry: NonNull<c_void>,
}

impl Clipped<'_> {
    /// The area of polygons, or the length of lines.
    pub fn size(&self) -> f64 {
        let measure = if self.of.kind == Kind::Closed { GEOSArea_r } else { GEOSLength_r };
        let mut size = 0.0;
        unsafe { measure(self.of.handle, self.geometry.as_ptr(), &mut size) };
        size
    }
}

impl Drop for Clipped<'_> {
    fn drop(&mut self) {
        unsafe { GEOSGeom_destroy_r(self.of.handle, self.geometry.as_ptr()) }
    }
}
