//! Messages as bytes: one record of one fragment, its body in units of four bytes.

mod fault;
mod reading;
mod writing;

pub use fault::{Fault, Wrong};
pub use reading::read;
pub use writing::write;

/// The longest record: a coded reply of 16 cells and 6 tags.
pub const LONGEST: usize = 84;

const LAST_FRAGMENT: u32 = 0x8000_0000;

#[cfg(test)]
mod tests {
    use super::*;
    use crate::message::{Cells, Clock, Message};
    use crate::script::hex;
    use crate::tag::Tag;

    fn record(message: &Message) -> String {
        let mut bytes = Vec::new();
        write(message, &mut bytes);
        assert_eq!(read(&bytes), Ok((message.clone(), bytes.len())));
        hex::digits(&bytes)
    }

    #[test]
    fn figures() {
        let notice = Message::TagNotice { object: 0, tag: Tag::new(1, 0) };
        assert_eq!(record(&notice), "8000001000000002000000000000000100000000");
        let notice = Message::WriteNotice {
            object: 0,
            value: Cells::from([100]),
            height: 1,
            clock: Clock::from([1, 0, 0]),
        };
        let digits =
            "80000024000000010000000000000001640000000000000100000003000000010000000000000000";
        assert_eq!(record(&notice), digits);
    }

    fn fault(digits: &str) -> (u8, usize, u8) {
        let bytes = hex::bytes(digits.as_bytes()).expect("digits");
        let fault = read(&bytes).expect_err("a fault");
        (fault.number(), fault.at, fault.layer())
    }

    #[test]
    fn faults_of_the_mark() {
        assert_eq!(fault("800000"), (19, 0, 1));
        assert_eq!(fault("8000000100"), (19, 4, 2));
        assert_eq!(fault("0000000500000000"), (19, 0, 1));
        assert_eq!(fault("0000000400000000"), (20, 0, 1));
    }

    #[test]
    fn faults_of_fields_and_messages() {
        assert_eq!(fault("8000000400000006"), (22, 4, 3));
        assert_eq!(fault("800000080000000200000006"), (23, 8, 3));
        assert_eq!(fault("8000000c0000000200000005000000"), (19, 0, 1));
        assert_eq!(fault("8000000c000000020000000500000001"), (19, 12, 2));
        assert_eq!(fault("8000001000000002000000000000000000000001"), (23, 12, 3));
        assert_eq!(fault("8000000d000000040000000100000001ff"), (19, 12, 2));
        assert_eq!(fault("8000000c000000040000000100000000"), (21, 12, 2));
        assert_eq!(fault("800000100000000400000001000000016400000100"), (21, 12, 2));
        assert_eq!(fault("800000140000000400000001000000016400000000000000"), (24, 20, 3));
    }
}
