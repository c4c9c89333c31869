//! Where things stand in the 32 registers.

pub const SECONDS: usize = 0x00;
pub const MINUTES: usize = 0x01;
pub const HOURS: usize = 0x02;
pub const WEEKDAY: usize = 0x03;
pub const DAY: usize = 0x04;
pub const MONTH: usize = 0x05;
pub const YEAR: usize = 0x06;
pub const ALARM_SECONDS: usize = 0x07;
pub const ALARM_MINUTES: usize = 0x08;
pub const ALARM_HOURS: usize = 0x09;
pub const ALARM_WEEKDAYS: usize = 0x0A;
pub const ALARM_DAY: usize = 0x0B;
pub const ALARM_MONTH: usize = 0x0C;
pub const ALARM_YEAR: usize = 0x0D;
pub const ALARM_ENABLE: usize = 0x0E;
pub const CTR1: usize = 0x0F;
pub const CTR2: usize = 0x10;
pub const CTR3: usize = 0x11;
pub const TRIM: usize = 0x12;
pub const COUNTDOWN: usize = 0x13;
pub const RAM: usize = 0x14;

// CTR1
pub const WRTC3: u8 = 1 << 7;
pub const INTAF: u8 = 1 << 5;
pub const INTDF: u8 = 1 << 4;
pub const WRTC2: u8 = 1 << 2;
pub const RTCF: u8 = 1 << 0;

// CTR2
pub const WRTC1: u8 = 1 << 7;
pub const IM: u8 = 1 << 6;
pub const FOBAT: u8 = 1 << 3;
pub const INTDE: u8 = 1 << 2;
pub const INTAE: u8 = 1 << 1;
pub const INTFE: u8 = 1 << 0;

// CTR3
pub const ARST: u8 = 1 << 7;

/// For each register the bits that can ever be 1; the others are fixed at 0.
pub const USED: [u8; 32] = [
    0x7F, 0x7F, 0xBF, 0x07, 0x3F, 0x1F, 0xFF, // time
    0x7F, 0x7F, 0x3F, 0x7F, 0x3F, 0x1F, 0xFF, // alarm
    0x7F, 0xB5, 0xFF, 0xBF, 0x7F, 0xFF, // enable, controls, trim, countdown
    0xFF, 0xFF, 0xFF, 0xFF, 0xFF, 0xFF, 0xFF, 0xFF, 0xFF, 0xFF, 0xFF, 0xFF, // RAM
];

/// Is any of these bytes, standing from register 00h on, using a fixed bit?
pub fn any_fixed_bit(bytes: &[u8]) -> bool {
    bytes.iter().zip(USED).any(|(byte, used)| byte & !used != 0)
}
