//! The operations of source document 000 by which a unit is told what to do: request data (04H),
//! group mode (07H), set bank (0AH), unlock bank (0CH), store edit buffer (0EH).

use crate::answers::{Refusal, NOT_ALLOWED};
use crate::kinds::{
    length, opcode, request, ANY_UNIT, FEWEST_UNITS, LAST_BANK, LAST_ID, LAST_NUMBER, MOST_UNITS,
};

/// An operation with its bytes behind the opcode.
#[derive(Clone, Copy, Debug, PartialEq, Eq)]
pub(crate) enum Operation {
    RequestData { wanted: u8, number: u8 },
    GroupMode { total: u8, id: u8 },
    SetBank { bank: u8 },
    UnlockBank,
    StoreEditBuffer { number: u8, bank: u8, id: u8 },
}

impl Operation {
    /// The test that reading and writing share: 8.
    pub fn tested(self) -> Result<Self, Refusal> {
        if self.is_allowed() {
            Ok(self)
        } else {
            Err(Refusal::plain(NOT_ALLOWED))
        }
    }

    /// Each value has its range by itself, but for the number of a request, which only a single
    /// patch has.
    const fn is_allowed(self) -> bool {
        match self {
            Self::RequestData { wanted, number } => match wanted {
                request::SINGLE_PATCH => number <= LAST_NUMBER,
                request::ALL | request::MASTER | request::EDIT_BUFFER => number == 0,
                _ => false,
            },
            Self::GroupMode { total, id } => {
                FEWEST_UNITS <= total && total <= MOST_UNITS && id <= LAST_ID
            }
            Self::SetBank { bank } => bank <= LAST_BANK,
            Self::UnlockBank => true,
            Self::StoreEditBuffer { number, bank, id } => {
                number <= LAST_NUMBER && bank <= LAST_BANK && (id <= LAST_ID || id == ANY_UNIT)
            }
        }
    }

    pub const fn opcode(self) -> u8 {
        match self {
            Self::RequestData { .. } => opcode::REQUEST_DATA,
            Self::GroupMode { .. } => opcode::GROUP_MODE,
            Self::SetBank { .. } => opcode::SET_BANK,
            Self::UnlockBank => opcode::UNLOCK_BANK,
            Self::StoreEditBuffer { .. } => opcode::STORE_EDIT_BUFFER,
        }
    }

    /// The length of its message.
    pub const fn length(self) -> usize {
        match self {
            Self::RequestData { .. } => length::REQUEST_DATA,
            Self::GroupMode { .. } => length::GROUP_MODE,
            Self::SetBank { .. } => length::SET_BANK,
            Self::UnlockBank => length::UNLOCK_BANK,
            Self::StoreEditBuffer { .. } => length::STORE_EDIT_BUFFER,
        }
    }

    /// The bytes behind the opcode, zeros behind them.
    pub const fn bytes(self) -> [u8; 4] {
        match self {
            Self::RequestData { wanted, number } => [wanted, number, 0, 0],
            Self::GroupMode { total, id } => [total, id, 0, 0],
            Self::SetBank { bank } => [bank, 0, 0, 0],
            Self::UnlockBank => [0; 4],
            Self::StoreEditBuffer { number, bank, id } => [number, bank, id, 0],
        }
    }
}
