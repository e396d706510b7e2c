/** DNS presentation format (RFC 1035 section 5): names, RDATA, zone files. README.md describes each call. */

/** A text: a string, which is passed as UTF-8, or its octets. */
export type Text = string | Uint8Array;

/** What the library rejects. Offsets count UTF-16 units of a string, or octets of a Uint8Array. */
export class DnsTextError extends Error {
  readonly name: 'DnsTextError';
  /** The status of the C library, as `DNSTEXT_BAD_DATA`. */
  readonly code: string;
  /** The offset of the error. An error of a type or of an origin has the offset in that argument. */
  readonly offset: number;
  /** In a zone file: the line, from 1. */
  readonly line?: number;
  /** In a zone file: the column, from 1, in octets. */
  readonly column?: number;
  /** The offset of the quote or the parenthesis that isn't closed. */
  readonly opened?: number;
  /** In an included file: its name, as in `$INCLUDE`. */
  readonly file?: string;
  private constructor();
}

/** A record of a zone file. */
export interface ZoneRecord {
  /** The owner as in zone files, with the dot at its end. */
  readonly owner: string;
  /** The owner in wire format. */
  readonly name: Uint8Array;
  /** The TTL in seconds. */
  readonly ttl: number;
  /** The class, as `IN`. */
  readonly class: string;
  /** The type, as `MX`, or `TYPE65280` if it has no name. */
  readonly type: string;
  /** The number of the type. */
  readonly code: number;
  /** The RDATA in wire format. */
  readonly data: Uint8Array;
  /** The RDATA in presentation format, on one line. */
  readonly text: string;
  /** The line of its first token, from 1; that of the directive for a record of `$GENERATE`. */
  readonly line: number;
  /** The offset of its first token. */
  readonly offset: number;
  /** The offset after its last token. */
  readonly end: number;
  /** In an included file: its name, as in `$INCLUDE`. */
  readonly file?: string;
}

export interface RecordsOptions {
  /** The absolute name that is appended to relative names. Without one they are errors. */
  origin?: string;
  /** The TTL of records without one, in seconds, until a `$TTL`. */
  ttl?: number;
  /** The class of records without one: `IN` if left out. */
  rdclass?: string | number;
  /** Returns the text of a file that `$INCLUDE` names, or undefined if there is none. */
  include?: (name: string) => Text | undefined;
  /** The maximum number of entries of a `$GENERATE`: 65,536 if left out. */
  maxGenerate?: number;
}

export interface DnsText {
  /** The version of the library. That of a module without proofs ends in `(not proved)`. */
  readonly version: string;
  /** Parses RDATA of a type to wire format. */
  parseData(type: string | number, text: Text, origin?: string): Uint8Array;
  /** Prints RDATA in presentation format, on one line. */
  formatData(type: string | number, octets: Uint8Array): string;
  /** Returns RDATA in canonical form (RFC 4034 section 6.2). */
  canonicalData(type: string | number, octets: Uint8Array): Uint8Array;
  /** Returns RDATA of TXT with this text, in strings of 255 octets. */
  textData(text: Text): Uint8Array;
  /** Parses one word of a zone file as a name. `@` is the origin, which is appended to relative names. */
  parseName(text: Text, origin?: string): Uint8Array;
  /** Prints a name as in zone files. */
  formatName(octets: Uint8Array): string;
  /** Compares two absolute names in canonical order (RFC 4034 section 6.1). */
  compareNames(a: Uint8Array, b: Uint8Array): -1 | 0 | 1;
  /** Parses a TTL, as `3600` or `1h`, and returns seconds. */
  parseTtl(text: Text): number;
  parseType(text: Text): number;
  formatType(code: number): string;
  parseClass(text: Text): number;
  formatClass(code: number): string;
  /** Returns the records of a zone file, and the error of each entry that is rejected, in order. */
  records(text: Text, options?: RecordsOptions): IterableIterator<ZoneRecord | DnsTextError>;
}

type Source = BufferSource | Response | WebAssembly.Module;

/** Compiles the module: `dnstext.wasm` beside this file if no other is passed. */
export function load(source?: Source | Promise<Source>): Promise<DnsText>;
