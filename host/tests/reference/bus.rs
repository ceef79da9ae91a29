//! The bus: lent words, and the devices that stand before some of them.

/// The addresses of the device registers, in the order in which tallies count them.
pub const REGISTERS: [u16; 8] = [KBSR, KBDR, DSR, DDR, TSR, TIR, PSR, MCR];
pub const KBSR: u16 = 0xFE00;
pub const KBDR: u16 = 0xFE02;
pub const DSR: u16 = 0xFE04;
pub const DDR: u16 = 0xFE06;
pub const TSR: u16 = 0xFE08;
pub const TIR: u16 = 0xFE0A;
pub const PSR: u16 = 0xFFFC;
pub const MCR: u16 = 0xFFFE;

/// A byte was to be shown and the output has no free byte.
#[derive(Clone, Copy, Debug)]
pub struct NoRoom;

/// What a data or pointer access meets at a device's address.
trait Device {
    fn load(&mut self, at: u16) -> u16;
    fn store(&mut self, at: u16, value: u16) -> Result<(), NoRoom>;
}

fn bit(word: u16, number: u32) -> bool {
    word >> number & 1 == 1
}

/// KBSR and KBDR.
#[derive(Clone, Copy, Debug)]
pub struct Keyboard {
    ready: bool,
    enable: bool,
    key: u8,
}

impl Keyboard {
    pub fn new(kbsr: u16, kbdr: u16) -> Self {
        Keyboard { ready: bit(kbsr, 15), enable: bit(kbsr, 14), key: kbdr as u8 }
    }

    pub fn kbsr(&self) -> u16 {
        u16::from(self.ready) << 15 | u16::from(self.enable) << 14
    }

    pub fn kbdr(&self) -> u16 {
        u16::from(self.key)
    }

    pub fn strike(&mut self, key: u8) {
        self.key = key;
        self.ready = true;
    }

    pub fn wants_service(&self) -> bool {
        self.ready && self.enable
    }
}

impl Device for Keyboard {
    fn load(&mut self, at: u16) -> u16 {
        if at == KBSR {
            return self.kbsr();
        }
        self.ready = false;
        self.kbdr()
    }

    fn store(&mut self, at: u16, value: u16) -> Result<(), NoRoom> {
        if at == KBSR {
            self.enable = bit(value, 14);
        }
        Ok(())
    }
}

/// DSR and DDR.
#[derive(Debug)]
pub struct Display<'a> {
    pub output: &'a mut [u8],
    pub shown: usize,
    /// The steps until the display is ready again.
    pub busy: u16,
}

/// The steps that a display needs for a byte after the one that showed it.
const BUSY_STEPS: u16 = 8;

impl Display<'_> {
    /// Whether a display may have this count.
    pub fn may_be_busy_for(count: u16) -> bool {
        count <= BUSY_STEPS
    }

    pub fn is_ready(&self) -> bool {
        self.busy == 0
    }

    pub fn has_room(&self) -> bool {
        self.shown < self.output.len()
    }

    /// The end of a step, which began with so many bytes shown.
    pub fn end_step(&mut self, shown_before: usize) {
        let showed = self.shown > shown_before;
        self.busy = if showed { BUSY_STEPS } else { self.busy.saturating_sub(1) };
    }
}

impl Device for Display<'_> {
    fn load(&mut self, at: u16) -> u16 {
        if at == DSR && self.is_ready() {
            0x8000
        } else {
            0
        }
    }

    fn store(&mut self, at: u16, value: u16) -> Result<(), NoRoom> {
        if at == DDR && self.is_ready() {
            *self.output.get_mut(self.shown).ok_or(NoRoom)? = value as u8;
            self.shown += 1;
        }
        Ok(())
    }
}

/// TSR and TIR.
#[derive(Clone, Copy, Debug)]
pub struct Timer {
    ready: bool,
    enable: bool,
    interval: u16,
    /// The steps that are left of the interval, unless that is 0.
    left: u16,
}

impl Timer {
    pub fn new(status: u16, interval: u16, left: u16) -> Self {
        Timer { ready: bit(status, 15), enable: bit(status, 14), interval, left }
    }

    pub fn status(&self) -> u16 {
        u16::from(self.ready) << 15 | u16::from(self.enable) << 14
    }

    pub fn interval(&self) -> u16 {
        self.interval
    }

    pub fn left(&self) -> u16 {
        self.left
    }

    /// Whether some steps of the interval are left, and no more than it has.
    pub fn is_within_interval(&self) -> bool {
        match self.interval {
            0 => self.left == 0,
            interval => (1..=interval).contains(&self.left),
        }
    }

    /// Takes a step off, and tells whether the interval has passed.
    pub fn count(&mut self) -> bool {
        if self.interval == 0 {
            return false;
        }
        self.left -= 1;
        let passed = self.left == 0;
        if passed {
            self.ready = true;
            self.left = self.interval;
        }
        passed
    }

    pub fn wants_service(&self) -> bool {
        self.ready && self.enable
    }
}

impl Device for Timer {
    fn load(&mut self, at: u16) -> u16 {
        if at == TIR {
            return self.interval;
        }
        let status = self.status();
        self.ready = false;
        status
    }

    fn store(&mut self, at: u16, value: u16) -> Result<(), NoRoom> {
        if at == TIR {
            (self.interval, self.left) = (value, value);
        } else {
            self.enable = bit(value, 14);
        }
        Ok(())
    }
}

/// PSR. Unpacking a word drops the bits that are not defined.
#[derive(Clone, Copy, Debug)]
pub struct Status {
    pub user: bool,
    pub priority: u8,
    pub negative: bool,
    pub zero: bool,
    pub positive: bool,
}

impl Status {
    pub fn unpack(psr: u16) -> Self {
        Status {
            user: bit(psr, 15),
            priority: (psr >> 8 & 7) as u8,
            negative: bit(psr, 2),
            zero: bit(psr, 1),
            positive: bit(psr, 0),
        }
    }

    pub fn pack(&self) -> u16 {
        u16::from(self.user) << 15
            | u16::from(self.priority) << 8
            | u16::from(self.negative) << 2
            | u16::from(self.zero) << 1
            | u16::from(self.positive)
    }

    pub fn set_codes(&mut self, result: u16) {
        let result = result as i16;
        self.negative = result < 0;
        self.zero = result == 0;
        self.positive = result > 0;
    }
}

impl Device for Status {
    fn load(&mut self, _: u16) -> u16 {
        self.pack()
    }

    fn store(&mut self, _: u16, value: u16) -> Result<(), NoRoom> {
        *self = Status { user: self.user, ..Status::unpack(value) };
        Ok(())
    }
}

/// MCR.
#[derive(Clone, Copy, Debug)]
pub struct Control {
    pub clock_enable: bool,
}

impl Control {
    pub fn new(mcr: u16) -> Self {
        Control { clock_enable: bit(mcr, 15) }
    }

    pub fn mcr(&self) -> u16 {
        u16::from(self.clock_enable) << 15
    }
}

impl Device for Control {
    fn load(&mut self, _: u16) -> u16 {
        self.mcr()
    }

    fn store(&mut self, _: u16, value: u16) -> Result<(), NoRoom> {
        *self = Control::new(value);
        Ok(())
    }
}

/// The device registers that one step reached, as places in [`REGISTERS`].
#[derive(Clone, Copy, Debug, Default)]
pub struct Reached {
    pub pointer: Option<usize>,
    pub load: Option<usize>,
    pub store: Option<usize>,
}

/// How a step uses a lent word.
#[derive(Clone, Copy, Debug, PartialEq, Eq)]
pub enum Use {
    Fetch,
    Pointer,
    Load,
    Pop,
    Vector,
    Store,
    Push,
}

/// The lent words that one step used, in order. The most are the five of an LDI or STI whose second
/// address is denied: fetch, pointer, two pushes and the vector.
#[derive(Clone, Copy, Debug, Default)]
pub struct Used([Option<(Use, u16)>; 5]);

impl Used {
    fn note(&mut self, how: Use, at: u16) {
        *self.0.iter_mut().find(|place| place.is_none()).expect("five at most") = Some((how, at));
    }

    pub fn iter(&self) -> impl Iterator<Item = (Use, u16)> + '_ {
        self.0.iter().flatten().copied()
    }
}

/// The devices whose state a step may have to give back.
#[derive(Clone, Copy, Debug)]
pub struct Devices {
    pub keyboard: Keyboard,
    pub timer: Timer,
    pub status: Status,
    pub control: Control,
}

#[derive(Debug)]
pub struct Bus<'a> {
    /// What fetches, pushes, pops and vectors use.
    pub words: &'a mut [u16],
    pub display: Display<'a>,
    pub devices: Devices,
    pub reached: Reached,
    pub used: Used,
    /// Whether the PSR has an address, as in the third edition.
    pub psr_at_its_address: bool,
}

impl Bus<'_> {
    fn device(&mut self, at: u16) -> Option<&mut dyn Device> {
        match at {
            KBSR | KBDR => Some(&mut self.devices.keyboard),
            DSR | DDR => Some(&mut self.display),
            TSR | TIR => Some(&mut self.devices.timer),
            PSR if self.psr_at_its_address => Some(&mut self.devices.status),
            MCR => Some(&mut self.devices.control),
            _ => None,
        }
    }

    fn place(&self, at: u16) -> Option<usize> {
        let plain = at == PSR && !self.psr_at_its_address;
        REGISTERS.iter().position(|&register| register == at && !plain)
    }

    /// The lent word at an address, a device's too.
    pub fn take(&mut self, how: Use, at: u16) -> u16 {
        self.used.note(how, at);
        self.words[usize::from(at)]
    }

    /// Replaces the lent word at an address, a device's too.
    pub fn put(&mut self, how: Use, at: u16, value: u16) {
        self.used.note(how, at);
        self.words[usize::from(at)] = value;
    }

    fn get(&mut self, how: Use, at: u16) -> u16 {
        match self.device(at) {
            Some(device) => device.load(at),
            None => self.take(how, at),
        }
    }

    pub fn load_pointer(&mut self, at: u16) -> u16 {
        self.reached.pointer = self.place(at);
        self.get(Use::Pointer, at)
    }

    pub fn load(&mut self, at: u16) -> u16 {
        self.reached.load = self.place(at);
        self.get(Use::Load, at)
    }

    pub fn store(&mut self, at: u16, value: u16) -> Result<(), NoRoom> {
        self.reached.store = self.place(at);
        match self.device(at) {
            Some(device) => device.store(at, value)?,
            None => self.put(Use::Store, at, value),
        }
        Ok(())
    }
}
