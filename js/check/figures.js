// Prints what reading a zone file costs, in microseconds of processor time a record: the call of the module alone,
// `records`, and `records` with the text of each record; and the start in ms. bench/reading.c is the native call.
//
//   node figures.js MODULE.wasm ZONE
import { readFileSync } from 'node:fs';

const [, , path, zone] = process.argv, octets = readFileSync(path), text = readFileSync(zone);
const instances = [], Instance = WebAssembly.Instance;
WebAssembly.Instance = function (module) {
  const made = new Instance(module);
  instances.push(made.exports);
  return made;
};
const timed = run => {
  const start = process.cpuUsage(), count = run(), { user, system } = process.cpuUsage(start);
  return [count, user + system];
};
const { load } = await import(process.env.DNSTEXT_JS ?? '../dnstext.js');
const start = performance.now(), dns = await load(octets);
console.log(`start: ${(performance.now() - start).toFixed(1)} ms`);

// The call alone, with a state, a record and its RDATA after the text.
function calls() {
  const { memory, __heap_base: base, dnstext_zone_init: init, dnstext_record_next: next } = instances.at(-1);
  const at = Number(base.value), zoneAt = BigInt(at), recordAt = zoneAt + 1024n, outcomeAt = zoneAt + 2048n;
  const out = zoneAt + 4096n, textAt = out + 65536n, length = BigInt(text.length);
  memory.grow(Math.ceil((Number(textAt) + text.length - memory.buffer.byteLength) / 65536));
  new Uint8Array(memory.buffer).set(text, Number(textAt));
  init(zoneAt);
  let count = 0;
  while (next(textAt, length, zoneAt, recordAt, out, 65535n, outcomeAt) !== 1) count++;
  return count;
}
function records() { let count = 0; for (const it of dns.records(text)) count += it.line > 0; return count; }
function texts() { let count = 0; for (const it of dns.records(text)) count += (it.text ?? '').length >= 0; return count; }

for (const run of [records, texts, calls]) {
  run === calls || run();
  const [count, time] = timed(run);
  console.log(`${run.name}: ${count} items, ${(time / count).toFixed(2)} us each`);
}
const [memory] = instances.map(it => it.memory.buffer.byteLength).sort((a, b) => b - a);
console.log(`memory: ${memory} octets for ${text.length} of text`);
