//! What goes over a link: first one byte, the number of the office that writes there, then
//! frames. A frame is the number of a carriage, four bytes, low byte first, and its value, one
//! byte.

/// How many bytes a frame has, so that the reader of a link always knows where one ends.
pub const BYTES: usize = 5;

/// A value under way by one carriage.
#[derive(Debug, Clone, Copy, PartialEq, Eq)]
pub struct Frame {
    /// The carriage's number in the plan.
    pub carriage: u32,
    pub value: u8,
}

impl Frame {
    pub fn to_bytes(self) -> [u8; BYTES] {
        let [a, b, c, d] = self.carriage.to_le_bytes();
        [a, b, c, d, self.value]
    }

    /// Any bytes are a frame; whether it belongs on the link is for the one who reads it there to say.
    pub fn from_bytes([a, b, c, d, value]: [u8; BYTES]) -> Frame {
        Frame {
            carriage: u32::from_le_bytes([a, b, c, d]),
            value,
        }
    }
}

#[cfg(test)]
mod tests {
    use super::*;

    #[test]
    fn a_frame_goes_there_and_back() {
        let frame = Frame {
            carriage: 463,
            value: 1,
        };
        assert_eq!(frame.to_bytes(), [0xCF, 0x01, 0, 0, 1]);
        for bytes in [[0; BYTES], [255; BYTES], [1, 2, 3, 4, 5]] {
            assert_eq!(Frame::from_bytes(bytes).to_bytes(), bytes);
        }
    }
}
