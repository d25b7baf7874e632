//! Traces: records of 32 bytes.
//!
//! | bytes  | field                                                     |
//! |--------|-----------------------------------------------------------|
//! | 0      | kind                                                      |
//! | 1      | slot                                                      |
//! | 2      | endpoint                                                  |
//! | 3      | flag: bit 0 BSR, DC or cycle; bit 1 found / pointer given |
//! | 4..7   | zero                                                      |
//! | 8..15  | pointer                                                   |
//! | 16..23 | value                                                     |
//! | 24..31 | zero                                                      |

use crate::watch::Look;

pub const RECORD: usize = 32;

/// A call, by kind: the number of each kind is its place here, from 1.
#[derive(Debug, Clone, Copy)]
pub enum Call {
    SetLimit {
        limit: u64,
    },
    SetDcbaap {
        dcbaap: u64,
    },
    EnableSlot,
    DisableSlot {
        slot: u8,
    },
    AddressDevice {
        slot: u8,
        input: u64,
        bsr: bool,
    },
    ConfigureEndpoint {
        slot: u8,
        input: u64,
        dc: bool,
    },
    EvaluateContext {
        slot: u8,
        input: u64,
    },
    ResetDevice {
        slot: u8,
    },
    ResetAll,
    StopEndpoint {
        slot: u8,
        endpoint: u8,
    },
    ResetEndpoint {
        slot: u8,
        endpoint: u8,
    },
    SetDequeue {
        slot: u8,
        endpoint: u8,
        pointer: u64,
        cycle: bool,
    },
    Doorbell {
        slot: u8,
        endpoint: u8,
        report: Look,
    },
    HostOk {
        slot: u8,
        endpoint: u8,
        report: Look,
    },
    HostStall {
        slot: u8,
        endpoint: u8,
        at: Option<(u64, bool)>,
    },
    HostTransactionError {
        slot: u8,
        endpoint: u8,
        at: Option<(u64, bool)>,
    },
    HostTrbError {
        slot: u8,
        endpoint: u8,
    },
    GuestStore {
        address: u64,
        value: u8,
    },
}

/// Which fields each kind uses: slot, endpoint, flag bits, pointer, value.
const USES: [(bool, bool, u8, bool, bool); 18] = [
    (false, false, 0, false, true),  // 1 set limit
    (false, false, 0, true, false),  // 2 set DCBAAP
    (false, false, 0, false, false), // 3 Enable Slot
    (true, false, 0, false, false),  // 4 Disable Slot
    (true, false, 1, true, false),   // 5 Address Device
    (true, false, 1, true, false),   // 6 Configure Endpoint
    (true, false, 0, true, false),   // 7 Evaluate Context
    (true, false, 0, false, false),  // 8 Reset Device
    (false, false, 0, false, false), // 9 Reset of all slots
    (true, true, 0, false, false),   // 10 Stop Endpoint
    (true, true, 0, false, false),   // 11 Reset Endpoint
    (true, true, 1, true, false),    // 12 Set Dequeue
    (true, true, 3, true, false),    // 13 Doorbell
    (true, true, 3, true, false),    // 14 Ok
    (true, true, 3, true, false),    // 15 Stall
    (true, true, 3, true, false),    // 16 Transaction Error
    (true, true, 0, false, false),   // 17 TRB Error
    (false, false, 0, true, true),   // 18 guest store of one byte
];

/// None: a bad record.
pub fn parse(record: &[u8; RECORD]) -> Option<Call> {
    let [kind, slot, endpoint, flag, ..] = *record;
    let word = |at: usize| u64::from_le_bytes(record[at..at + 8].try_into().unwrap());
    let (pointer, value) = (word(8), word(16));

    let uses = USES.get(usize::from(kind).checked_sub(1)?)?;
    let due_zero = record[4..8].iter().chain(&record[24..]).all(|&b| b == 0)
        && (uses.0 || slot == 0)
        && (uses.1 || endpoint == 0)
        && flag & !uses.2 == 0
        && (uses.3 || pointer == 0)
        && (uses.4 || value == 0);
    if !due_zero {
        return None;
    }

    let bit0 = flag & 1 != 0;
    let bit1 = flag & 2 != 0;
    let at = bit1.then_some((pointer, bit0));
    let report = Look {
        found: bit1,
        pointer,
        cycle: bit0,
    };
    Some(match kind {
        1 => Call::SetLimit { limit: value },
        2 => Call::SetDcbaap { dcbaap: pointer },
        3 => Call::EnableSlot,
        4 => Call::DisableSlot { slot },
        5 => Call::AddressDevice {
            slot,
            input: pointer,
            bsr: bit0,
        },
        6 => Call::ConfigureEndpoint {
            slot,
            input: pointer,
            dc: bit0,
        },
        7 => Call::EvaluateContext {
            slot,
            input: pointer,
        },
        8 => Call::ResetDevice { slot },
        9 => Call::ResetAll,
        10 => Call::StopEndpoint { slot, endpoint },
        11 => Call::ResetEndpoint { slot, endpoint },
        12 => Call::SetDequeue {
            slot,
            endpoint,
            pointer,
            cycle: bit0,
        },
        13 => Call::Doorbell {
            slot,
            endpoint,
            report,
        },
        14 => Call::HostOk {
            slot,
            endpoint,
            report,
        },
        15 => Call::HostStall { slot, endpoint, at },
        16 => Call::HostTransactionError { slot, endpoint, at },
        17 => Call::HostTrbError { slot, endpoint },
        18 => Call::GuestStore {
            address: pointer,
            value: u8::try_from(value).ok()?,
        },
        _ => return None,
    })
}

impl Call {
    /// The slot whose endpoints the call may end.
    pub const fn slot(&self) -> Option<u8> {
        match *self {
            Self::DisableSlot { slot }
            | Self::AddressDevice { slot, .. }
            | Self::ConfigureEndpoint { slot, .. }
            | Self::EvaluateContext { slot, .. }
            | Self::ResetDevice { slot }
            | Self::StopEndpoint { slot, .. }
            | Self::ResetEndpoint { slot, .. }
            | Self::SetDequeue { slot, .. }
            | Self::Doorbell { slot, .. }
            | Self::HostOk { slot, .. }
            | Self::HostStall { slot, .. }
            | Self::HostTransactionError { slot, .. }
            | Self::HostTrbError { slot, .. } => Some(slot),
            Self::SetLimit { .. }
            | Self::SetDcbaap { .. }
            | Self::EnableSlot
            | Self::ResetAll
            | Self::GuestStore { .. } => None,
        }
    }
}
