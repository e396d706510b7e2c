// Compares the answers of the module with those of the native library, which rows.py wrote: octets, texts, errors with
// their places, lines and columns. A text that is UTF-8 is also passed as a string, whose places are in UTF-16 units.
//
//   node compare.js MODULE.wasm ROWS.jsonl [--spoil]
//
// With --spoil one message of the native library is altered, which must be reported.
const ORIGIN = 'example.', MOST_GENERATE = 50;
const octetsOf = hex => Uint8Array.from({ length: hex.length / 2 }, (_, at) => parseInt(hex.slice(2 * at, 2 * at + 2), 16));
const hexOf = octets => Array.from(octets, it => it.toString(16).padStart(2, '0')).join('');

export function compare(dns, lines) {
  const counts = { rows: 0, answers: 0, errors: 0, strings: 0, wrong: 0 };
  const decoder = new TextDecoder('utf-8', { fatal: true, ignoreBOM: true });
  let first;
  const expect = (actual, wanted, row) => {
    counts.answers++;
    if (JSON.stringify(actual) === JSON.stringify(wanted)) return;
    counts.wrong++;
    first ??= { row, actual, wanted };
  };
  const decode = octets => { try { return decoder.decode(octets); } catch { return undefined; } };
  const answer = run => {
    try { return ['ok', run()]; } catch (error) {
      if (!error.code?.startsWith('DNSTEXT_')) throw error;
      counts.errors++;
      return [error.code, error.message, error.offset, ...error.opened === undefined ? [] : [error.opened]];
    }
  };
  const itemOf = it => {
    if (!(it instanceof Error)) {
      return ['ok', it.owner, it.ttl, dns.parseClass(it.class), it.code, hexOf(it.data), it.text, it.offset, it.line, it.end];
    }
    counts.errors++;
    return [it.code, it.message, it.offset, it.line, it.column, it.opened ?? null];
  };
  const items = text => Array.from(dns.records(text, { origin: ORIGIN, maxGenerate: MOST_GENERATE }), itemOf);
  // The fields of an item that are offsets: in an error also that of what it leaves open.
  const offsets = it => it[0] === 'ok' ? [7, 9] : [2, 5];
  const compareRow = {
    data(row, octets, text) {
      const read = from => answer(() => hexOf(dns.parseData(row.code, from, row.origin ? ORIGIN : '')));
      const wanted = row.opened === undefined ? row.want : [...row.want, row.opened];
      expect(read(octets), wanted, row);
      if (text === undefined) return;
      expect(read(text), row.want[0] === 'ok' ? wanted : [...row.want.slice(0, 2), ...row.units.slice(0, wanted.length - 2)], row);
    },
    zone(row, octets, text) {
      expect(items(octets), row.want, row);
      if (text === undefined) return;
      const unitsOf = place => {
        while (place > 0 && (octets[place] & 0xC0) === 0x80) place--;
        return decoder.decode(octets.subarray(0, place)).length;
      };
      const inUnits = it => it.map((field, at) => offsets(it).includes(at) && field !== null ? unitsOf(field) : field);
      expect(items(text), row.want.map(inUnits), row);
    },
    print(row, octets) { expect(answer(() => dns.formatData(row.code, octets)), row.want, row); },
    canonical(row, octets) { expect(answer(() => hexOf(dns.canonicalData(row.code, octets))), row.want, row); },
    name(row, octets, text) {
      for (const it of [octets, text ?? octets]) expect(answer(() => hexOf(dns.parseName(it, ORIGIN))), row.want, row);
    },
    text(row, octets, text) { for (const it of [octets, text ?? octets]) expect(answer(() => hexOf(dns.textData(it))), row.want, row); },
    ttl(row, octets, text) { for (const it of [octets, text ?? octets]) expect(answer(() => dns.parseTtl(it)), row.want, row); },
    order(row) { expect(answer(() => dns.compareNames(octetsOf(row.a), octetsOf(row.b))), row.want, row); },
  };
  for (const line of lines) {
    if (line === '') continue;
    const row = JSON.parse(line), octets = octetsOf(row.text ?? row.octets ?? ''), text = row.text === undefined ? undefined : decode(octets);
    counts.rows++;
    if (text !== undefined) counts.strings++;
    compareRow[row.k](row, octets, text);
  }
  return { counts, first };
}

// Returns rows in which one message is another.
export function spoil(rows) { return rows.replaceAll('decimal number overflow', 'decimal number underflow'); }

if (globalThis.process?.argv[2]) {
  const { load } = await import(process.env.DNSTEXT_JS ?? '../dnstext.js'), { readFileSync } = await import('node:fs');
  const [, , module, path, option] = process.argv, rows = readFileSync(path, 'utf8');
  const dns = await load(readFileSync(module));
  const { counts, first } = compare(dns, (option === '--spoil' ? spoil(rows) : rows).split('\n'));
  console.log(`${counts.rows} rows in Node ${process.version}: ${JSON.stringify(counts)}`);
  if (first && option !== '--spoil') console.log(JSON.stringify(first));
  process.exitCode = counts.wrong === 0 ? 0 : 1;
}
