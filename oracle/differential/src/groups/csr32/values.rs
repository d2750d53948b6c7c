//! Special values, by their bits.

pub const FINITE: [u64; 12] = [
    0x0000_0000_0000_0000, // 0.0
    0x8000_0000_0000_0000, // -0.0
    0x0000_0000_0000_0001, // the least subnormal
    0x8000_0000_0000_0001,
    0x000f_ffff_ffff_ffff, // the largest subnormal
    0x800f_ffff_ffff_ffff,
    0x0010_0000_0000_0000, // the least normal
    0x3ff0_0000_0000_0000, // 1.0
    0xbff0_0000_0000_0000,
    0x7fe0_0000_0000_0000, // 2 to the power of 1023
    0x7fef_ffff_ffff_ffff, // the largest
    0xffef_ffff_ffff_ffff,
];

pub const NOT_FINITE: [u64; 10] = [
    0x7ff0_0000_0000_0000, // infinity
    0xfff0_0000_0000_0000,
    0x7ff0_0000_0000_0001, // signalling NaNs
    0xfff0_0000_0000_0001,
    0x7ff7_ffff_ffff_ffff,
    0x7ff8_0000_0000_0000, // quiet NaNs
    0xfff8_0000_0000_0000,
    0x7ff8_0000_0000_0001,
    0x7fff_ffff_ffff_ffff,
    0xffff_ffff_ffff_ffff,
];
