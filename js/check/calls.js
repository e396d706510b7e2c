// Tests of dnstext.js that no row can express: arguments, offsets in strings, included files, $GENERATE, instances,
// memory and stack.
//
//   node calls.js MODULE.wasm
import assert from 'node:assert/strict';
import { readFileSync } from 'node:fs';

// Each instance that the glue makes. A test alters the exports of the next ones.
const instances = [], Instance = WebAssembly.Instance;
let alter = calls => calls;
WebAssembly.Instance = function (module) {
  const { exports } = new Instance(module);
  instances.push(exports);
  return { exports: alter(exports) };
};
const module = await WebAssembly.compile(readFileSync(process.argv[2]));
const { DnsTextError, load } = await import('../dnstext.js');
const dns = await load(module);

const tests = [], test = (name, run) => tests.push([name, run]);
const hex = octets => Buffer.from(octets).toString('hex');
const errorOf = run => { try { run(); } catch (error) { return error; } return assert.fail('no error'); };
const fieldsOf = it => it instanceof Error ? [it.code, it.line, it.column, it.offset, it.opened] : [it.owner, it.ttl, it.text, it.line, it.offset, it.end];
const read = (text, options) => Array.from(dns.records(text, { origin: 'example.', ...options }), fieldsOf);

test('modules', async () => {
  const older = calls => ({ ...calls, dnstext_record_print: undefined });
  alter = older;
  await assert.rejects(load(module), TypeError);
  alter = calls => calls;
  for (const wrong of [5, 'dnstext.wasm', new Uint8Array(8)]) await assert.rejects(load(wrong));
  await assert.rejects(load(new Response('', { status: 404 })), /status 404/);
  await assert.rejects(load(Promise.reject(new SyntaxError('own'))), SyntaxError);
  const octets = readFileSync(process.argv[2]);
  for (const it of [octets, Promise.resolve(octets), new Response(octets), octets.buffer.slice(octets.byteOffset, octets.byteOffset + octets.length)]) {
    assert.equal((await load(it)).formatType(1), 'A');
  }
});

test('values', () => {
  assert.equal(hex(dns.parseData('MX', '10 mail', 'example.')), '000a046d61696c076578616d706c6500');
  assert.equal(hex(dns.parseData(15, Buffer.from('10 a.'))), '000a016100');
  assert.equal(dns.formatData('MX', Buffer.from('000a016100', 'hex')), '10 a.');
  assert.equal(hex(dns.canonicalData('MX', Buffer.from('000a014100', 'hex'))), '000a016100');
  assert.equal(hex(dns.textData('v=DKIM1; p=')), '0b763d444b494d313b20703d');
  assert.equal(hex(dns.textData('')), '00');
  assert.equal(dns.textData('x'.repeat(300)).length, 302);
  assert.equal(hex(dns.textData('é')), '02c3a9');
  assert.equal(hex(dns.parseName('@', 'example.')), '076578616d706c6500');
  assert.equal(hex(dns.parseName('www', 'example.')), '03777777076578616d706c6500');
  assert.equal(dns.formatName(Buffer.from('03612e6200', 'hex')), 'a\\.b.');
  assert.deepEqual(['a.', 'A.', 'b.'].map(it => dns.compareNames(dns.parseName('a.'), dns.parseName(it))), [0, 0, -1]);
  assert.equal(dns.compareNames(dns.parseName('b.'), dns.parseName('a.')), 1);
  assert.deepEqual([dns.parseTtl('1h30m'), dns.parseType('mx'), dns.parseClass('ch')], [5400, 15, 3]);
  assert.deepEqual([dns.formatType(15), dns.formatType(65280), dns.formatClass(1)], ['MX', 'TYPE65280', 'IN']);
  assert.match(dns.version, /^\d+\.\d+\.\d+( \(not proved\))?$/);
});

test('errors', () => {
  const error = errorOf(() => dns.parseData('MX', '65536 a.'));
  assert.ok(error instanceof DnsTextError && error instanceof Error);
  assert.deepEqual([error.name, error.code, error.message, error.offset], ['DnsTextError', 'DNSTEXT_BAD_DATA', 'MX: preference: decimal number overflow', 0]);
  assert.equal(errorOf(() => dns.parseData('MX', '10 a')).code, 'DNSTEXT_NO_ORIGIN');
  assert.equal(errorOf(() => dns.parseData('MX', '10 a.', 'example')).code, 'DNSTEXT_RELATIVE_NAME');
  assert.equal(errorOf(() => dns.parseData('NONE', '')).code, 'DNSTEXT_UNKNOWN_TYPE');
  assert.equal(errorOf(() => dns.compareNames(dns.parseName('a.'), new Uint8Array(0))).code, 'DNSTEXT_RELATIVE_NAME');
  assert.equal(errorOf(() => dns.formatName(new Uint8Array(300))).code, 'DNSTEXT_TOO_LONG');
  assert.equal(errorOf(() => dns.textData('x'.repeat(65280))).code, 'DNSTEXT_TOO_LONG');
  assert.equal(errorOf(() => dns.parseTtl('2147483648')).code, 'DNSTEXT_BAD_TTL');
});

test('arguments', () => {
  const wrong = [
    [TypeError, () => dns.parseData('A', 5)], [TypeError, () => dns.parseData('A', null)], [TypeError, () => dns.parseData({}, '')],
    [TypeError, () => dns.parseData('A', '', null)], [TypeError, () => dns.formatData('A', '')], [TypeError, () => dns.formatName([1])],
    [RangeError, () => dns.parseData(65536, '')], [RangeError, () => dns.parseData(-1, '')], [RangeError, () => dns.parseData(1.5, '')],
    [RangeError, () => dns.formatType(65536)], [TypeError, () => dns.formatType('MX')], [TypeError, () => dns.formatClass(1n)],
    [TypeError, () => dns.parseType(15)], [TypeError, () => dns.compareNames('a.', 'b.')], [TypeError, () => dns.parseTtl(5)],
    [TypeError, () => dns.records(5)], [RangeError, () => dns.records('', { ttl: 2 ** 31 })], [RangeError, () => dns.records('', { ttl: NaN })],
    [TypeError, () => dns.records('', { ttl: '5' })], [RangeError, () => dns.records('', { rdclass: 70000 })], [TypeError, () => dns.records('', { include: 5 })],
    [RangeError, () => dns.records('', { maxGenerate: -1 })], [TypeError, () => dns.records('', { origin: 5 })],
    [DnsTextError, () => dns.records('', { origin: 'a' })], [DnsTextError, () => dns.records('', { rdclass: 'XX' })],
  ];
  for (const [kind, run] of wrong) assert.throws(run, kind, String(run));
  // (memory that is never written)
  assert.throws(() => dns.textData(new Uint8Array(2 ** 31)), RangeError);
});

test('offsets', () => {
  // é has two octets and one unit, € three and one, 😀 four and two. A lone surrogate is passed as U+FFFD.
  for (const [text, units, octets] of [['é', 1, 2], ['€', 1, 3], ['😀', 2, 4], ['\uD83D', 1, 3]]) {
    const zone = `a 5 TXT ${text} ; ${text}\nb 5 A ${text}\n`, start = zone.indexOf('b');
    const more = 2 * (octets - units);
    assert.deepEqual(read(zone).map(it => it.slice(-3)), [[1, 0, 8 + units], [7, start + 6, undefined]]);
    assert.deepEqual(read(new TextEncoder().encode(zone)).map(it => it.slice(-3)), [[1, 0, 8 + octets], [7, start + 6 + more, undefined]]);
  }
  const error = errorOf(() => dns.parseData('TXT', 'é "é'));
  assert.deepEqual([error.code, error.offset, error.opened], ['DNSTEXT_OPEN_QUOTE', 4, 2]);
  assert.equal(errorOf(() => dns.parseData('TXT', 'é (')).opened, 2);
  const zone = 'a 5 TXT é "b\nb 5 A 192.0.2.1\n$TTL 5\nc TXT (é\n';
  assert.deepEqual(read(zone).map(it => [it[0], it.at(-1)]), [['DNSTEXT_OPEN_QUOTE', 10], ['b.example.', 28], ['DNSTEXT_OPEN_PARENTHESIS', 42]]);
});

test('zone files', () => {
  assert.deepEqual(read('a A 192.0.2.1\n', { ttl: 7 }), [['a.example.', 7, '192.0.2.1', 1, 0, 13]]);
  assert.deepEqual(read('a A 192.0.2.1\n'), [['DNSTEXT_NO_TTL', 1, 1, 0, undefined]]);
  assert.deepEqual([...dns.records('a. 5 A 192.0.2.1', { rdclass: 'CH' })].map(it => it.class), ['CH']);
  assert.deepEqual([...dns.records('a 5 A 192.0.2.1')].map(it => it.code), ['DNSTEXT_NO_ORIGIN']);
  const [record] = dns.records('a. 5 MX 10 b.');
  assert.deepEqual([record.type, record.code, hex(record.name), hex(record.data), record.file], ['MX', 15, '016100', '000a016200', undefined]);
  assert.deepEqual(Object.keys(record).slice(0, 3), ['owner', 'name', 'ttl']);
});

test('included files', () => {
  const files = { f: '$ORIGIN f.\n$TTL 9\nb A 192.0.2.2\n', loop: '$INCLUDE loop\n', bad: '\n x' };
  const options = { include: name => files[name] };
  assert.deepEqual(read('$TTL 5\na A 192.0.2.1\n$INCLUDE f\n A 192.0.2.3\nc A 192.0.2.4\n', options).map(it => it.slice(0, 4)), [
    ['a.example.', 5, '192.0.2.1', 2], ['b.f.', 9, '192.0.2.2', 3], ['a.example.', 9, '192.0.2.3', 4], ['c.example.', 9, '192.0.2.4', 5]]);
  assert.deepEqual([...dns.records('$INCLUDE f o.\n', { include: () => 'a 5 A 192.0.2.1' })].map(it => [it.owner, it.file]), [['a.o.', 'f']]);
  const messages = (text, options) => [...dns.records(text, { origin: 'example.', ...options })].map(it => [it.line, it.message, it.file]);
  assert.deepEqual(messages('\n$INCLUDE g\n'), [[2, '$INCLUDE g: not read here', undefined]]);
  assert.deepEqual(messages('\n$INCLUDE g\n', options), [[2, '$INCLUDE g: not found', undefined]]);
  assert.deepEqual(messages('\n$INCLUDE loop\n', options), [[1, '$INCLUDE loop: more than 20 levels', 'loop']]);
  assert.equal(messages('$INCLUDE bad\n', options)[0][2], 'bad');
  assert.throws(() => messages('$INCLUDE f\n', { include: () => { throw new SyntaxError('own'); } }), SyntaxError);
  assert.throws(() => messages('$INCLUDE f\n', { include: () => 5 }), TypeError);
});

test('$GENERATE', () => {
  const text = '; é\n$GENERATE 1-3 h$ 5 A 192.0.2.$\nb 5 A 192.0.2.9\n', start = text.indexOf('$');
  const place = [2, start, text.indexOf('\nb')];
  assert.deepEqual(read(text), [['h1.example.', 5, '192.0.2.1', ...place], ['h2.example.', 5, '192.0.2.2', ...place],
    ['h3.example.', 5, '192.0.2.3', ...place], ['b.example.', 5, '192.0.2.9', 3, text.indexOf('b 5'), text.length - 1]]);
  assert.deepEqual(read(text, { maxGenerate: 3 }).length, 4);
  assert.deepEqual(read(text, { maxGenerate: 2 }).map(it => it[0]), ['h1.example.', 'h2.example.', 'DNSTEXT_GENERATE', 'b.example.']);
  assert.deepEqual(read('$GENERATE 254-259 h$ 5 A 192.0.2.$\n').map(it => it[0]), ['h254.example.', 'h255.example.', 'DNSTEXT_BAD_DATA']);
  assert.deepEqual(read('$GENERATE 3-1 h$ 5 A 192.0.2.$\n').map(it => it.slice(0, 3)), [['DNSTEXT_BAD_GENERATE', 1, 1]]);
});

test('instances', () => {
  const zone = 'a. 5 A 192.0.2.1\nb. 5 A 192.0.2.2\n', before = instances.length;
  const [first, second] = [dns.records(zone), dns.records(zone)];
  const turns = [first, second, first, second].map(it => it.next().value.owner);
  assert.deepEqual(turns, ['a.', 'a.', 'b.', 'b.']);
  for (const it of [first, second]) assert.equal(it.next().done, true);
  const made = instances.length - before;
  assert.ok(made <= 2, `${made} instances`);
  // An iterator that is left half-way by `break` gives its instance back. Ten others at once need more.
  for (let n = 0; n < 50; n++) for (const it of dns.records(zone)) { assert.equal(it.owner, 'a.'); break; }
  assert.equal(instances.length - before, made);
  const many = Array.from({ length: 10 }, () => dns.records(zone));
  for (const it of many) assert.equal([...it].length, 2);
  const now = instances.length;
  for (const it of Array.from({ length: 8 }, () => dns.records(zone))) assert.equal([...it].length, 2);
  assert.equal(instances.length, now);
  // A callback may use the library.
  assert.equal(read('$INCLUDE f\n', { include: name => `${dns.formatType(1)}. 5 A 192.0.2.1` })[0][0], 'A.');
});

test('a trap', async () => {
  alter = calls => ({ ...calls, dnstext_record_next: (...words) => calls.dnstext_record_next(2n ** 32n - 8n, 100n, ...words.slice(2)) });
  const other = await load(module), before = instances.length;
  assert.throws(() => [...other.records('a. 5 A 192.0.2.1')], WebAssembly.RuntimeError);
  alter = calls => calls;
  assert.equal([...other.records('a. 5 A 192.0.2.1')].length, 1);
  // (one that reads, and one that prints a type)
  assert.ok(instances.length - before <= 2);
});

test('memory', async () => {
  alter = calls => ({ ...calls, memory: { get buffer() { return calls.memory.buffer; }, grow() { throw new RangeError('no memory'); } } });
  const other = await load(module);
  assert.throws(() => other.textData('x'.repeat(5e6)), RangeError);
  assert.throws(() => other.records('x'.repeat(5e6)), RangeError);
  alter = calls => calls;
  assert.equal(hex(other.textData('x')), '0178');
  // 100 MB, of which the records are the last. An instance of that size isn't kept.
  const line = `; ${'é€😀 '.repeat(11)}\n`, count = Math.ceil(1e8 / Buffer.byteLength(line)), text = `${line.repeat(count)}a 5 A 192.0.2.1\nb 5 A x\n`;
  const began = performance.now(), before = instances.length;
  const start = line.length * count;
  assert.deepEqual(read(text), [['a.example.', 5, '192.0.2.1', count + 1, start, start + 15], ['DNSTEXT_BAD_DATA', count + 2, 7, start + 22, undefined]]);
  console.log(`calls: 100 MB of comments in ${Math.round(performance.now() - began)} ms`);
  assert.equal(read('a 5 A 192.0.2.1').length, 1);
  assert.ok(instances.length - before <= 2);
});

// The stack is before all else in the memory, so that a call which exceeds it traps.
test('stack', async () => {
  const STACK = 131072, MARK = 0xA5, most = {};
  alter = calls => Object.fromEntries(Object.entries(calls).map(([name, call]) => [name, typeof call !== 'function' ? call : (...words) => {
    const result = new Uint8Array(calls.memory.buffer, 0, STACK).fill(MARK) && call(...words);
    const lowest = new Uint8Array(calls.memory.buffer, 0, STACK).findIndex(it => it !== MARK);
    most[name] = Math.max(most[name] ?? 0, lowest < 0 ? 0 : STACK - lowest);
    return result;
  }]));
  const other = await load(module);
  const long = Array.from({ length: 250 }, (_, n) => `k${n}`).join(' '), texts = `TXT ${'"0123456789" '.repeat(5000)}`;
  const zone = `$ORIGIN a.\n$TTL 5\na ${texts}\nb HTTPS 1 . alpn="h2,h3" ipv4hint=192.0.2.1 key65000="${'x'.repeat(2000)}"\nc TYPE9 \\# 3000 ${'00'.repeat(3000)}\nd NSEC a. A TYPE65535\ne TXT ${long}\n$GENERATE 1-3 h$ A 192.0.2.$\nf APL 1:192.0.2.0/24\ng LOC 1 N 1 E 1m\nh MX (\n`;
  let count = 0;
  for (const it of other.records(zone)) if (!(it instanceof Error) && it.text) count++;
  assert.ok(count >= 8, `${count} records`);
  for (const [name, used] of Object.entries(most)) assert.ok(used <= 80 * 1024, `${name} uses ${used} octets of stack`);
  console.log(`calls: octets of stack: ${['dnstext_record_next', 'dnstext_data_print'].map(it => `${it} ${most[it]}`).join(', ')}`);
});

let failed = 0;
for (const [name, run] of tests) {
  try { await run(); } catch (error) { failed++; console.log(`calls: ${name}: ${error.stack}`); }
  alter = calls => calls;
}
console.log(`calls: ${tests.length} tests, ${failed} failed`);
process.exitCode = failed === 0 ? 0 : 1;
