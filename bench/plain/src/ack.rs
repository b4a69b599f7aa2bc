//! The reply subject of a message that JetStream delivered.

/// Where a message stands, as its reply subject tells it.
#[derive(Clone, Copy, Debug, PartialEq, Eq)]
pub struct Delivery {
    pub stream_sequence: u64,
    pub consumer_sequence: u64,
    /// When the stream stored it, in nanoseconds since 1970.
    pub published: i128,
    /// How many messages are still to come.
    pub pending: u64,
}

/// The nanoseconds since 1970 that an instant may have.
const INSTANTS: std::ops::RangeInclusive<i128> = -377_705_023_201_000_000_000..=253_402_207_200_999_999_999;

/// Reads `$JS.ACK.` followed by seven tokens, or by nine or more, of which the first two are the domain and the account.
pub fn read_delivery(reply: &str) -> Option<Delivery> {
    let rest = reply.strip_prefix("$JS.ACK.")?;
    let count = rest.bytes().filter(|&b| b == b'.').count() + 1;
    let mut tokens = rest.split('.');
    match count {
        7 => {}
        n if n >= 9 => {
            tokens.nth(1)?;
        }
        _ => return None,
    }
    let _stream = tokens.next()?;
    let _consumer = tokens.next()?;
    let _delivered: i64 = tokens.next()?.parse().ok()?;
    let stream_sequence = tokens.next()?.parse().ok()?;
    let consumer_sequence = tokens.next()?.parse().ok()?;
    let published: i128 = tokens.next()?.parse().ok()?;
    let pending = tokens.next()?.parse().ok()?;
    INSTANTS.contains(&published).then_some(Delivery { stream_sequence, consumer_sequence, published, pending })
}

#[cfg(test)]
mod tests {
    use super::*;

    #[test]
    fn reads_both_forms() {
        let delivery = Some(Delivery { stream_sequence: 4, consumer_sequence: 7, published: 0, pending: 0 });
        assert_eq!(read_delivery("$JS.ACK.s.c.1.4.7.0.0"), delivery);
        assert_eq!(read_delivery("$JS.ACK._.a.s.c.1.4.+7.0.0"), delivery);
        assert_eq!(read_delivery("$JS.ACK.d.a.s.c.1.4.7.0.0.random.more"), delivery);
        assert_eq!(read_delivery("$JS.ACK.a.s.c.1.4.7.0.0"), None);
        assert_eq!(read_delivery("$JS.ACK.s.c.1.4.7.253402207201000000000.0"), None);
        assert_eq!(read_delivery("$JS.FC.s.c.1.4.7.0.0"), None);
    }
}
