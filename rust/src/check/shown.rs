//! Replies as opensc-tool and scriptor show them.

use crate::hex;

/// The bytes of a text of digits in pairs.
pub fn bytes(text: &str) -> Vec<u8> {
    let mut bytes = Vec::new();
    for pair in text.split_whitespace() {
        let _ = hex::decode(pair.as_bytes(), &mut bytes);
    }
    bytes
}

/// Columns that sixteen bytes take; their characters stand behind.
const COLUMNS: usize = 3 * 16;

/// "Received (SW1=0x91, SW2=0x00)" for each, and below it the data, sixteen
/// bytes a line. A first line that is short has its characters right behind.
pub fn by_opensc_tool(shown: &str) -> Vec<Vec<u8>> {
    let replies = shown.split("Received (SW1=0x").skip(1);
    replies
        .map(|reply| {
            let mut lines = reply.lines();
            let status = lines.next().unwrap_or_default().replace(", SW2=0x", " ");
            let data = lines.take_while(|line| !line.starts_with("Sending:"));
            let digits = data.enumerate().map(|(at, line)| {
                let short = at == 0 && line.len() < 4 * 16;
                let columns = if short { line.len() / 4 * 3 } else { COLUMNS };
                line.get(..columns).unwrap_or_default().to_owned() + " "
            });
            let digits: String = digits.collect();
            bytes(&(digits + &status.replace([')', ':'], "")))
        })
        .collect()
}

/// "< 64 00 00 00 91 00 : meaning" for each, over several lines if it is long.
pub fn by_scriptor(shown: &str) -> Vec<Vec<u8>> {
    let replies = shown.split("\n< ").skip(1);
    replies
        .map(|reply| bytes(reply.split(" :").next().unwrap_or_default()))
        .collect()
}

#[cfg(test)]
mod tests {
    use super::*;

    #[test]
    fn opensc_tool_is_read_rightly() {
        let shown = "\
Sending: 90 6C 00 00 01 03 00 \n\
Received (SW1=0x91, SW2=0x00):\n\
64 41 42 43 dABC\n\
Sending: 90 AD 00 00 07 00 00 00 00 14 00 00 00 \n\
Received (SW1=0x91, SW2=0x00):\n\
00 41 00 00 00 00 00 00 00 00 00 00 00 00 00 20 .A............. \n\
01 02 03 04                                     AB F\n\
Sending: 90 71 00 00 02 00 00 00 \n\
Received (SW1=0x91, SW2=0xCA)\n";
        let mut long = bytes("00 41 00 00 00 00 00 00 00 00 00 00 00 00 00 20 01 02 03 04");
        long.extend([0x91, 0x00]);
        let expected = [bytes("64 41 42 43 91 00"), long, bytes("91 CA")];
        assert_eq!(by_opensc_tool(shown), expected);
    }

    #[test]
    fn scriptor_is_read_rightly() {
        let shown = "\
Using T=1 protocol\n\
> 906C0000010300\n\
< 64 00 00 00 91 00 : Error not defined by ISO 7816\n\
> RESET\n\
> 90AD0000070000000012000000\n\
< 00 00 00 00 00 00 00 00 00 00 00 00 00 00 00 00 \n\
00 01 91 00 : Error not defined by ISO 7816\n";
        let mut long = vec![0; 17];
        long.extend([0x01, 0x91, 0x00]);
        assert_eq!(by_scriptor(shown), [bytes("64 00 00 00 91 00"), long]);
    }
}
