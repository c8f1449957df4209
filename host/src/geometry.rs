//! The geometry record of document 01 ("What comes in, what is ported"), typed, and the plain
//! numbers in which it crosses to the archive.

/// The five families.
#[derive(Clone, Copy, Debug, PartialEq, Eq)]
pub enum Family {
    /// One plane.
    Gray,
    /// Three planes, B', G, R' on the wire; G, B, R in the buffer.
    Rgb,
    /// Three planes, the second and third reduced by sx and sy.
    Yuv,
    /// Rgb with a fourth plane.
    Rgba,
    /// Yuv with a fourth plane of full size.
    Yuva,
}

impl Family {
    /// All five, in the order of their numbers.
    pub const ALL: [Family; 5] =
        [Family::Gray, Family::Rgb, Family::Yuv, Family::Rgba, Family::Yuva];

    /// The number at the boundary.
    pub fn number(self) -> u32 {
        match self {
            Family::Gray => 0,
            Family::Rgb => 1,
            Family::Yuv => 2,
            Family::Rgba => 3,
            Family::Yuva => 4,
        }
    }

    /// P, the plane count.
    pub fn planes(self) -> usize {
        match self {
            Family::Gray => 1,
            Family::Rgb | Family::Yuv => 3,
            Family::Rgba | Family::Yuva => 4,
        }
    }

    /// Whether planes 1 and 2 may be reduced.
    pub fn has_factors(self) -> bool {
        matches!(self, Family::Yuv | Family::Yuva)
    }
}

/// The geometry record.
#[derive(Clone, Copy, Debug, PartialEq, Eq)]
pub struct Geometry {
    /// 1 to 16,384.
    pub width: u32,
    /// 1 to 16,384.
    pub height: u32,
    /// 1 to 16,384.
    pub slice_height: u32,
    /// The family.
    pub family: Family,
    /// 1 or 2; 1 unless Yuv or Yuva.
    pub sx: u32,
    /// 1 or 2; 1 unless Yuv or Yuva.
    pub sy: u32,
    /// 8, 10, 12 or 14.
    pub depth: u32,
    /// Two fields.
    pub interlaced: bool,
}

impl Geometry {
    /// A progressive geometry with factors 1.
    pub fn plain(family: Family, width: u32, height: u32, slice_height: u32, depth: u32) -> Self {
        Geometry { width, height, slice_height, family, sx: 1, sy: 1, depth, interlaced: false }
    }

    /// The record as the archive takes it.
    pub fn numbers(&self) -> Numbers {
        Numbers {
            width: self.width,
            height: self.height,
            slice_height: self.slice_height,
            family: self.family.number(),
            sx: self.sx,
            sy: self.sy,
            depth: self.depth,
            interlaced: u32::from(self.interlaced),
        }
    }

    /// Whether width, height and slice height are within document 01's caps.
    pub fn within_caps(&self) -> bool {
        let fits = |n: u32| (1..=16_384).contains(&n);
        fits(self.width) && fits(self.height) && fits(self.slice_height)
    }

    /// K, the slices of one plane. The slice height must not be 0.
    pub fn bands(&self) -> usize {
        self.height.div_ceil(self.slice_height) as usize
    }

    /// T = P·K.
    pub fn slices(&self) -> usize {
        self.family.planes() * self.bands()
    }

    /// Width and height of a plane in wire order.
    pub fn plane_size(&self, plane: usize) -> (usize, usize) {
        let (width, height) = (self.width as usize, self.height as usize);
        if self.family.has_factors() && (plane == 1 || plane == 2) {
            (width / self.sx as usize, height / self.sy as usize)
        } else {
            (width, height)
        }
    }

    /// The plane buffer's element count.
    pub fn samples(&self) -> usize {
        (0..self.family.planes()).map(|p| self.plane_size(p)).map(|(w, h)| w * h).sum()
    }

    /// The lengths' byte count, P·2^depth.
    pub fn length_bytes(&self) -> usize {
        self.family.planes() << self.depth
    }
}

/// The record as plain numbers; anything outside document 01's rules is refusal 1.
#[derive(Clone, Copy, Debug, PartialEq, Eq)]
pub struct Numbers {
    /// Frame width.
    pub width: u32,
    /// Frame height.
    pub height: u32,
    /// Slice height.
    pub slice_height: u32,
    /// 0 Gray, 1 Rgb, 2 Yuv, 3 Rgba, 4 Yuva.
    pub family: u32,
    /// Factor across.
    pub sx: u32,
    /// Factor down.
    pub sy: u32,
    /// Bits of a sample.
    pub depth: u32,
    /// 0 or 1.
    pub interlaced: u32,
}
