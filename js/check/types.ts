// Uses each name of dnstext.d.ts: `tsc --strict` accepts it, and rejects each line below @ts-expect-error.
import { DnsText, DnsTextError, Text, ZoneRecord, load } from '../dnstext';

async function use(): Promise<void> {
  const dns: DnsText = await load();
  await load(fetch('dnstext.wasm'));
  await load(new Uint8Array(8));
  const data: Uint8Array = dns.parseData('MX', '10 mail.example.');
  const texts: string[] = [dns.formatData(15, data), dns.formatName(dns.parseName('@', 'example.')), dns.formatType(15), dns.version];
  const numbers: number[] = [dns.parseTtl('1h'), dns.parseType('MX'), dns.parseClass('IN'), dns.compareNames(data, data)];
  const octets: Uint8Array[] = [dns.canonicalData('MX', data), dns.textData('v=DKIM1; p=')];
  const include = (name: string): Text | undefined => (name === 'f' ? 'a 5 A 192.0.2.1' : undefined);
  for (const it of dns.records('@ 5 A 192.0.2.1', { origin: 'example.', ttl: 5, rdclass: 'IN', include, maxGenerate: 5 })) {
    if (it instanceof DnsTextError) console.log(it.line, it.column, it.opened, it.file, it.code.length, it.offset);
    else show(it);
  }
  // @ts-expect-error: a number isn't a text
  dns.parseData('MX', 5);
  // @ts-expect-error: a string isn't octets
  dns.formatData('MX', '');
  console.log(texts, numbers, octets);
}

function show(record: ZoneRecord): void {
  const text: string = `${record.owner} ${record.ttl} ${record.class} ${record.type} ${record.text}`;
  console.log(text, record.code + record.line + record.offset + record.end, record.name, record.data, record.file);
  // @ts-expect-error: a record isn't changed
  record.ttl = 5;
}

void use();
