/// A call of the ledger: what is done to the chip, apart from when.
#[derive(Clone, Copy, Debug, PartialEq, Eq, Hash)]
#[allow(missing_docs)] // the fields are named by what they are
pub enum Call {
    /// A byte written to a register.
    WriteRegister { address: u16, value: u8 },
    /// A byte written to the array: latched, or the start of a verify sense.
    Write8 { address: u16, value: u8 },
    /// A byte read from the array.
    Read8 { address: u16 },
    /// A word read from the array, high byte first.
    Read16 { address: u16 },
    /// Error protection.
    Protect,
    /// Reset of the controller.
    Reset,
    /// Loss of the supply.
    PowerOff,
    /// The controller's mode by its number (0 to 5, see [`Mode`]), module clock and oscillator.
    Environment { mode: u8, module: bool, oscillator: bool },
}

/// The controller's modes, by document 01's numbers.
#[derive(Clone, Copy, Debug, PartialEq, Eq, Hash)]
#[repr(u8)]
#[allow(missing_docs)]
pub enum Mode {
    Active = 0,
    Subactive = 1,
    Sleep = 2,
    Subsleep = 3,
    Watch = 4,
    Standby = 5,
}
