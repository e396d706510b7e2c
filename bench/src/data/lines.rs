//! Generates lines of RDATA to be timed.

/// A type, and its RDATA in the line of a number. There is one for each form of RDATA.
pub struct Kind {
    pub name: &'static str,
    pub code: u16,
    line: fn(usize) -> String,
}

impl Kind {
    /// Returns the line of a number.
    pub fn line(&self, place: usize) -> String {
        (self.line)(place)
    }

    /// Returns `count` lines.
    pub fn lines(&self, count: usize) -> Vec<u8> {
        let lines = (0..count).map(|place| self.line(place) + "\n");
        lines.collect::<String>().into_bytes()
    }
}

/// Returns a number that differs from index to index.
fn mixed(place: usize) -> u64 {
    (place as u64 + 1).wrapping_mul(0x9e37_79b9_7f4a_7c15)
}

/// Returns `count` digits of an alphabet.
fn digits(place: usize, count: usize, alphabet: &[u8]) -> String {
    let digit = |at: usize| {
        let value = mixed(place * 131 + at) >> 40;
        alphabet[value as usize % alphabet.len()] as char
    };
    (0..count).map(digit).collect()
}

fn hex(place: usize, octets: usize) -> String {
    digits(place, 2 * octets, b"0123456789ABCDEF")
}

/// Returns pairs of digits, separated by dashes.
fn dashed(place: usize, pairs: usize) -> String {
    let octets = &mixed(place).to_be_bytes()[..pairs];
    let pairs: Vec<String> = octets.iter().map(|it| format!("{it:02x}")).collect();
    pairs.join("-")
}

/// Returns groups of four digits in base 64.
fn base64(place: usize, groups: usize) -> String {
    let alphabet = b"ABCDEFGHIJKLMNOPQRSTUVWXYZabcdefghijklmnopqrstuvwxyz0123456789+/";
    digits(place, 4 * groups, alphabet)
}

fn address(place: usize) -> String {
    let [a, b, c, ..] = mixed(place).to_be_bytes();
    format!("192.{a}.{b}.{c}")
}

fn long_address(place: usize) -> String {
    let [a, b, ..] = mixed(place).to_be_bytes();
    format!("2001:db8:{a:x}::{place:x}:{b:x}")
}

fn time(place: usize) -> String {
    let day = place % 28 + 1;
    let (hour, minute) = (place % 24, place % 60);
    format!("202611{day:02}{hour:02}{minute:02}00")
}

fn soa(place: usize) -> String {
    let serial = 2_026_112_600 + place;
    format!("ns{place}.example.com. hostmaster.example.com. {serial} 2h 1800 4w 3600")
}

fn txt(place: usize) -> String {
    format!("\"v=spf1 include:_spf{place}.example.com -all\" \"say \\\"\\195\\188\\\"; {place}\"")
}

fn caa(place: usize) -> String {
    format!("0 issue \"ca{place}.example.net; account={place}\"")
}

fn ds(place: usize) -> String {
    format!("{} 13 2 {}", place % 65_536, hex(place, 32))
}

fn dnskey(place: usize) -> String {
    format!("257 3 13 {} {}", base64(place, 12), base64(place + 7, 10))
}

fn rrsig(place: usize) -> String {
    let (to, from) = (time(place + 9), time(place));
    let (first, second) = (base64(place, 12), base64(place + 7, 10));
    format!("AAAA 13 3 3600 {to} {from} 2642 example.com. {first} {second}")
}

fn nsec(place: usize) -> String {
    format!("host{place}.example.com. A MX TXT AAAA RRSIG NSEC TYPE1234")
}

fn nsec3(place: usize) -> String {
    let hash = digits(place, 32, b"0123456789ABCDEFGHIJKLMNOPQRSTUV");
    format!("1 1 12 AABBCCDD {hash} NS SOA MX RRSIG DNSKEY NSEC3PARAM")
}

fn loc(place: usize) -> String {
    let (minutes, thousandths) = (place % 60, place % 1000);
    format!("52 {minutes} 23.{thousandths:03} N 4 53 32.000 E -2.00m 1m 10000m 10m")
}

fn apl(place: usize) -> String {
    let (one, other) = (address(place), long_address(place));
    format!("1:{one}/24 !1:{one}/32 2:{other}/64")
}

fn hinfo(place: usize) -> String {
    format!("\"INTEL-{place}\" \"GNU/LINUX \\\"6.{}\\\"\"", place % 20)
}

fn rp(place: usize) -> String {
    format!("admin{place}.example.com. people.host{place}.example.com.")
}

fn srv(place: usize) -> String {
    let (priority, weight) = (place % 10, place % 100);
    format!("{priority} {weight} 5060 sip{place}.example.com.")
}

fn naptr(place: usize) -> String {
    let order = place % 1000;
    if place.is_multiple_of(2) {
        format!("{order} 10 \"u\" \"E2U+sip\" \"!^(.*)$!sip:\\\\1@host{place}.example.com!\" .")
    } else {
        format!("{order} 50 \"s\" \"SIP+D2U\" \"\" _sip._udp.host{place}.example.com.")
    }
}

fn cert(place: usize) -> String {
    format!("PKIX {} RSASHA256 {}", place % 65_536, base64(place, 64))
}

fn sshfp(place: usize) -> String {
    format!("4 2 {}", hex(place, 32))
}

fn ipseckey(place: usize) -> String {
    let (kind, gateway) = match place % 4 {
        0 => (1, address(place)),
        1 => (2, long_address(place)),
        2 => (3, format!("gateway{place}.example.com.")),
        _ => (0, ".".to_string()),
    };
    format!("10 {kind} 2 {gateway} {}", base64(place, 22))
}

fn nsec3param(place: usize) -> String {
    format!("1 0 {} {}", place % 100, hex(place, 8))
}

fn tlsa(place: usize) -> String {
    format!("3 1 1 {}", hex(place, 32))
}

fn openpgpkey(place: usize) -> String {
    base64(place, 80)
}

fn csync(place: usize) -> String {
    format!("{} 3 A NS AAAA", 2_026_112_600 + place)
}

fn zonemd(place: usize) -> String {
    format!("{} 1 1 {}", 2_026_112_600 + place, hex(place, 48))
}

fn svcb(place: usize) -> String {
    let hints = format!("{},{}", address(place), address(place + 7));
    let (ech, long) = (base64(place, 16), long_address(place));
    format!(
        "{} svc{place}.example.com. mandatory=alpn,port alpn=h2,h3 port=8443 ipv4hint={hints} \
         ech={ech} ipv6hint={long} key667=host\\\"{place}\\\"",
        place % 10 + 1
    )
}

fn nid(place: usize) -> String {
    let (third, fourth) = (mixed(place) as u16, mixed(place + 7) as u16);
    format!("{} 14:4fff:{third:x}:{fourth:x}", place % 100)
}

fn uri(place: usize) -> String {
    let priority = place % 10;
    format!("{priority} 1 \"https://www{place}.example.com/path?query={place}\"")
}

const fn kind(name: &'static str, code: u16, line: fn(usize) -> String) -> Kind {
    Kind { name, code, line }
}

pub const KINDS: [Kind; 32] = [
    kind("A", 1, address),
    kind("AAAA", 28, long_address),
    kind("NS", 2, |place| format!("ns{place}.example.com.")),
    kind("MX", 15, |place| {
        format!("{} mail{place}.example.com.", place % 100)
    }),
    kind("SOA", 6, soa),
    kind("TXT", 16, txt),
    kind("CAA", 257, caa),
    kind("DS", 43, ds),
    kind("DNSKEY", 48, dnskey),
    kind("RRSIG", 46, rrsig),
    kind("NSEC", 47, nsec),
    kind("NSEC3", 50, nsec3),
    kind("LOC", 29, loc),
    kind("APL", 42, apl),
    kind("HINFO", 13, hinfo),
    kind("RP", 17, rp),
    kind("SRV", 33, srv),
    kind("NAPTR", 35, naptr),
    kind("CERT", 37, cert),
    kind("SSHFP", 44, sshfp),
    kind("IPSECKEY", 45, ipseckey),
    kind("NSEC3PARAM", 51, nsec3param),
    kind("TLSA", 52, tlsa),
    kind("OPENPGPKEY", 61, openpgpkey),
    kind("CSYNC", 62, csync),
    kind("ZONEMD", 63, zonemd),
    kind("SVCB", 64, svcb),
    kind("NID", 104, nid),
    kind("L32", 105, |place| {
        format!("{} {}", place % 100, address(place))
    }),
    kind("EUI48", 108, |place| dashed(place, 6)),
    kind("EUI64", 109, |place| dashed(place, 8)),
    kind("URI", 256, uri),
];
