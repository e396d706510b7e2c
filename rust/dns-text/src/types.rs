//! Constants of record types. `rust/type_constants.py` writes this file.
use crate::RecordType;

/// The types whose RDATA have a presentation format of their own.
impl RecordType {
    /// A (RFC 1035 section 3.4.1).
    pub const A: RecordType = RecordType(1);
    /// NS (RFC 1035 section 3.3.11).
    pub const NS: RecordType = RecordType(2);
    /// CNAME (RFC 1035 section 3.3.1).
    pub const CNAME: RecordType = RecordType(5);
    /// SOA (RFC 1035 section 3.3.13).
    pub const SOA: RecordType = RecordType(6);
    /// MB (RFC 1035 section 3.3.3).
    pub const MB: RecordType = RecordType(7);
    /// MG (RFC 1035 section 3.3.6).
    pub const MG: RecordType = RecordType(8);
    /// MR (RFC 1035 section 3.3.8).
    pub const MR: RecordType = RecordType(9);
    /// PTR (RFC 1035 section 3.3.12).
    pub const PTR: RecordType = RecordType(12);
    /// HINFO (RFC 1035 section 3.3.2).
    pub const HINFO: RecordType = RecordType(13);
    /// MINFO (RFC 1035 section 3.3.7).
    pub const MINFO: RecordType = RecordType(14);
    /// MX (RFC 1035 section 3.3.9).
    pub const MX: RecordType = RecordType(15);
    /// TXT (RFC 1035 section 3.3.14).
    pub const TXT: RecordType = RecordType(16);
    /// RP (RFC 1183 section 2.2).
    pub const RP: RecordType = RecordType(17);
    /// AFSDB (RFC 1183 section 1).
    pub const AFSDB: RecordType = RecordType(18);
    /// X25 (RFC 1183 section 3.1).
    pub const X25: RecordType = RecordType(19);
    /// ISDN (RFC 1183 section 3.2).
    pub const ISDN: RecordType = RecordType(20);
    /// RT (RFC 1183 section 3.3).
    pub const RT: RecordType = RecordType(21);
    /// NSAP (RFC 1706 section 5).
    pub const NSAP: RecordType = RecordType(22);
    /// NSAP-PTR (RFC 1348).
    pub const NSAP_PTR: RecordType = RecordType(23);
    /// SIG (RFC 2535 section 4.1).
    pub const SIG: RecordType = RecordType(24);
    /// KEY (RFC 2535 section 3.1, in the form of DNSKEY).
    pub const KEY: RecordType = RecordType(25);
    /// PX (RFC 2163 section 4).
    pub const PX: RecordType = RecordType(26);
    /// GPOS (RFC 1712 section 3).
    pub const GPOS: RecordType = RecordType(27);
    /// AAAA (RFC 3596 section 2.2).
    pub const AAAA: RecordType = RecordType(28);
    /// LOC (RFC 1876 section 2).
    pub const LOC: RecordType = RecordType(29);
    /// EID (IANA, by M. Patton for Nimrod).
    pub const EID: RecordType = RecordType(31);
    /// NIMLOC (IANA, by M. Patton for Nimrod).
    pub const NIMLOC: RecordType = RecordType(32);
    /// SRV (RFC 2782).
    pub const SRV: RecordType = RecordType(33);
    /// NAPTR (RFC 3403 section 4.1).
    pub const NAPTR: RecordType = RecordType(35);
    /// KX (RFC 2230 section 3).
    pub const KX: RecordType = RecordType(36);
    /// CERT (RFC 4398 section 2).
    pub const CERT: RecordType = RecordType(37);
    /// DNAME (RFC 6672 section 2.1).
    pub const DNAME: RecordType = RecordType(39);
    /// SINK (draft-eastlake-kitchen-sink).
    pub const SINK: RecordType = RecordType(40);
    /// APL (RFC 3123 section 4).
    pub const APL: RecordType = RecordType(42);
    /// DS (RFC 4034 section 5.1).
    pub const DS: RecordType = RecordType(43);
    /// SSHFP (RFC 4255 section 3.1).
    pub const SSHFP: RecordType = RecordType(44);
    /// IPSECKEY (RFC 4025 section 2.1).
    pub const IPSECKEY: RecordType = RecordType(45);
    /// RRSIG (RFC 4034 section 3.1).
    pub const RRSIG: RecordType = RecordType(46);
    /// NSEC (RFC 4034 section 4.1).
    pub const NSEC: RecordType = RecordType(47);
    /// DNSKEY (RFC 4034 section 2.1).
    pub const DNSKEY: RecordType = RecordType(48);
    /// DHCID (RFC 4701 section 3.1).
    pub const DHCID: RecordType = RecordType(49);
    /// NSEC3 (RFC 5155 section 3.2).
    pub const NSEC3: RecordType = RecordType(50);
    /// NSEC3PARAM (RFC 5155 section 4.2).
    pub const NSEC3PARAM: RecordType = RecordType(51);
    /// TLSA (RFC 6698 section 2.1).
    pub const TLSA: RecordType = RecordType(52);
    /// SMIMEA (RFC 8162 section 2).
    pub const SMIMEA: RecordType = RecordType(53);
    /// HIP (RFC 8005 section 5).
    pub const HIP: RecordType = RecordType(55);
    /// NINFO (draft-reid-dnsext-zs).
    pub const NINFO: RecordType = RecordType(56);
    /// RKEY (draft-reid-dnsext-rkey).
    pub const RKEY: RecordType = RecordType(57);
    /// TALINK (draft-wijngaards-dnsop-trust-history).
    pub const TALINK: RecordType = RecordType(58);
    /// CDS (RFC 7344 section 3.1).
    pub const CDS: RecordType = RecordType(59);
    /// CDNSKEY (RFC 7344 section 3.2).
    pub const CDNSKEY: RecordType = RecordType(60);
    /// OPENPGPKEY (RFC 7929 section 2.1).
    pub const OPENPGPKEY: RecordType = RecordType(61);
    /// CSYNC (RFC 7477 section 2.1).
    pub const CSYNC: RecordType = RecordType(62);
    /// ZONEMD (RFC 8976 section 2).
    pub const ZONEMD: RecordType = RecordType(63);
    /// SVCB (RFC 9460 section 2.1).
    pub const SVCB: RecordType = RecordType(64);
    /// HTTPS (RFC 9460 section 9).
    pub const HTTPS: RecordType = RecordType(65);
    /// DSYNC (RFC 9859 section 2).
    pub const DSYNC: RecordType = RecordType(66);
    /// HHIT (RFC 9886).
    pub const HHIT: RecordType = RecordType(67);
    /// BRID (RFC 9886).
    pub const BRID: RecordType = RecordType(68);
    /// SPF (RFC 7208 section 3.1).
    pub const SPF: RecordType = RecordType(99);
    /// NID (RFC 6742 section 2.1).
    pub const NID: RecordType = RecordType(104);
    /// L32 (RFC 6742 section 2.2).
    pub const L32: RecordType = RecordType(105);
    /// L64 (RFC 6742 section 2.3).
    pub const L64: RecordType = RecordType(106);
    /// LP (RFC 6742 section 2.4).
    pub const LP: RecordType = RecordType(107);
    /// EUI48 (RFC 7043 section 3.1).
    pub const EUI48: RecordType = RecordType(108);
    /// EUI64 (RFC 7043 section 4.1).
    pub const EUI64: RecordType = RecordType(109);
    /// URI (RFC 7553 section 4).
    pub const URI: RecordType = RecordType(256);
    /// CAA (RFC 8659 section 4.1).
    pub const CAA: RecordType = RecordType(257);
    /// AVC (IANA, by Cisco).
    pub const AVC: RecordType = RecordType(258);
    /// RESINFO (RFC 9606 section 4).
    pub const RESINFO: RecordType = RecordType(261);
    /// WALLET (IANA).
    pub const WALLET: RecordType = RecordType(262);
    /// TA (S. Weiler, Deploying DNSSEC Without a Signed Root, 2004).
    pub const TA: RecordType = RecordType(32768);
    /// DLV (RFC 4431 section 2).
    pub const DLV: RecordType = RecordType(32769);
}
