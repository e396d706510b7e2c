// DNS presentation format (RFC 1035 section 5) for JavaScript, over the WebAssembly module of the C library.
// README.md describes the calls. The module imports nothing and allocates nothing: all state is in its memory.

// The statuses of dnstext.h in order, without their prefix DNSTEXT_. c/layouts.py compares them with the header.
const STATUSES = `OK END NO_ROOM BAD_ESCAPE SHORT_INPUT BAD_UTF8 BAD_SYMBOL TOO_LONG BAD_ENCODING CLOSING
  OPEN_PARENTHESIS OPEN_QUOTE LONE_RETURN BAD_CURSOR EMPTY_LABEL LONG_LABEL BINARY_LABEL BAD_LABEL POINTER
  TRAILING_OCTETS NO_DIGIT TOO_GREAT BAD_PLACE BAD_TTL UNKNOWN_TYPE UNKNOWN_CLASS INCLUDE BAD_HEAD NOT_SUPPORTED
  BAD_NAME NO_ORIGIN NO_OWNER REFUSED_OWNER BAD_DATA NO_TTL RELATIVE_NAME GENERATE BAD_GENERATE`.split(/\s+/);
const { OK, END, NO_ROOM, OPEN_PARENTHESIS, OPEN_QUOTE, INCLUDE, NO_ORIGIN, BAD_DATA, RELATIVE_NAME, GENERATE,
  BAD_GENERATE } = Object.fromEntries(STATUSES.map((name, status) => [name, status]));

// Offsets in the structs of dnstext.h, and their sizes, where size_t has 8 octets. c/layouts.py compares them with C's.
const LAYOUTS = {
  outcome: { length: 0, place: 8, size: 16 },
  position: { offset: 0, line: 8, column: 16, size: 24 },
  cursor: { at: 0, opened: 16, size: 24 },
  token: { size: 24 },
  zone: { class_code: 0, has_default_ttl: 2, has_last_ttl: 3, default_ttl: 4, last_ttl: 8, at: 16, origin: 24, size: 552 },
  record: { place: 0, end: 16, ttl: 24, class_code: 28, type_code: 30, name: 32, size: 296 },
  kept_name: { length: 0, octets: 9, size: 264 },
};

// Offsets in the memory, after the module's own data: structs, a number, a name, the text of the caller, and a result.
let used = 0;
function placed({ size, ...members }, start = used) {
  used += size + 7 & ~7;
  return { start, size, ...Object.fromEntries(Object.entries(members).map(([name, offset]) => [name, start + offset])) };
}
const structs = ['outcome', 'position', 'cursor', 'zone', 'record'].map(name => placed(LAYOUTS[name]));
const [outcome, position, cursor, zone, record] = structs, { token, kept_name } = LAYOUTS;
const NUMBER = placed({ size: 8 }).start, NAME = placed({ size: 255 }).start, TEXT = used;

// Maximum values: octets of RDATA and of a text, a TTL, the numbers of a $GENERATE, levels of included texts; octets of
// the memory of an instance that is kept, such instances, and octets of a result at first.
const MOST_DATA = 65535, MOST_TEXT = 2 ** 31 - 1, MOST_TTL = 2 ** 31 - 1, MOST_GENERATE = 2 ** 31, MOST_DEEP = 20;
const MOST_KEPT = 1 << 20, MOST_FREE = 8, ROOM = 1536, VERSION = '0.3.0';
const decoder = new TextDecoder('utf-8', { ignoreBOM: true }), encoder = new TextEncoder();

/** What the library rejects: `code`, `offset`, and in a zone file `line`, `column`, `opened` and `file`. */
export class DnsTextError extends Error {
  constructor(status, message, where) {
    Object.assign(super(message), { name: 'DnsTextError', code: `DNSTEXT_${STATUSES[status]}` }, where);
  }
}

function need(value, isRight, what, kind, Wrong = TypeError) {
  if (!isRight) throw new Wrong(`${what}: expected ${kind}`);
  return value;
}
const isOctets = value => value instanceof Uint8Array || Object.prototype.toString.call(value) === '[object Uint8Array]';
const needOctets = (value, what) => need(value, isOctets(value), what, 'a Uint8Array'); // (of any window)
const needText = (value, what) => need(value, typeof value === 'string' || isOctets(value), what, 'a string or a Uint8Array');
const needNumber = (value, most, what) => need(need(value, typeof value === 'number', what, 'a number'),
  Number.isInteger(value) && value >= 0 && value <= most, what, `an integer from 0 to ${most}`, RangeError);

// An instance of the module, with its memory and one text.
class Instance {
  constructor(module) {
    this.calls = new WebAssembly.Instance(module).exports;
    this.base = Number(this.calls.__heap_base.value) + 15 & ~15;
    [this.outcome, this.position] = [outcome, position].map(it => this.pointer(it.start));
    this.look();
  }
  look() { [this.octets, this.view] = [Uint8Array, DataView].map(View => new View(this.calls.memory.buffer, this.base)); }
  pointer(offset) { return BigInt(this.base + offset); }
  number(offset) { return this.view.getUint32(offset, true); } // (a size is less than 4 GiB)
  store(offset, size) { this.view.setBigUint64(offset, BigInt(size), true); }
  slice(from, length) { return this.octets.slice(from, from + length); }
  string(from, length) { return decoder.decode(this.octets.subarray(from, from + length)); }
  // Grows the memory to a size. A memory with addresses of 64 bits accepts only a BigInt.
  grow(size) {
    const pages = Math.ceil((size - this.octets.length) / 65536), { memory } = this.calls;
    if (pages <= 0) return;
    try { memory.grow(pages); } catch (error) { if (error instanceof TypeError) memory.grow(BigInt(pages)); else throw error; }
    this.look();
  }
  // Stores a text, a string as UTF-8, and returns its pointer and length. A result is written at `out`.
  put(text, room = ROOM) {
    const octets = typeof text === 'string' ? encoder.encode(text) : text, { length } = octets;
    need(text, length <= MOST_TEXT, 'text', 'less than 2 GiB', RangeError);
    this.grow(TEXT + length + 8 + room);
    this.octets.set(octets, TEXT);
    Object.assign(this, { length, isPlain: length === text.length, out: TEXT + Math.ceil(length / 8) * 8, seen: 0, units: 0 });
    return this.text = [this.pointer(TEXT), BigInt(length)];
  }
  // Returns the offset in the caller's text of an offset in octets, by steps from the last one.
  offset(place) {
    if (this.isPlain) return place;
    const { octets } = this, unitsAt = at => (octets[TEXT + at] & 0xC0) === 0x80 ? 0 : octets[TEXT + at] < 0xF0 ? 1 : 2;
    let { seen, units } = this;
    while (place > 0 && place < this.length && unitsAt(place) === 0) place--;
    while (seen < place) units += unitsAt(seen++);
    while (seen > place) units -= unitsAt(--seen);
    return Object.assign(this, { seen, units }).units;
  }
  // Returns where an offset in octets is.
  where(place) {
    this.calls.dnstext_position_move(this.text[0], this.text[1], this.position, BigInt(place));
    return { offset: this.offset(place), line: this.number(position.line), column: this.number(position.column) };
  }
  // Calls with room for a result, and again with more if that is too little. Returns the status.
  fill(call, room = ROOM) {
    this.grow(this.out + room);
    const status = call(this.pointer(this.out), BigInt(room), this.outcome);
    this.written = this.number(outcome.length);
    return status === NO_ROOM && this.written > room ? this.fill(call, this.written) : status;
  }
  // Returns the text of an error: its own, which calls write with some statuses, or else that of the status.
  message(status, written = [BAD_DATA, NO_ORIGIN, BAD_GENERATE].includes(status) ? this.written : 0) {
    if (written === 0) this.fill((...to) => this.calls.dnstext_status_text(status, ...to));
    return this.string(this.out, written || this.written);
  }
  // Returns where the quote or parenthesis begins that a syntax error leaves open. Before it are only directives.
  opened(status, from) {
    if (status !== OPEN_QUOTE && status !== OPEN_PARENTHESIS) return {};
    this.octets.fill(0, cursor.start, cursor.start + cursor.size);
    this.store(cursor.at, from);
    const words = [...this.text, this.pointer(cursor.start), this.pointer(this.out), BigInt(ROOM / token.size), this.outcome];
    let found = OK;
    while (found === OK) found = this.calls.dnstext_entry_next(...words);
    return found === status ? { opened: this.offset(this.number(cursor.opened)) } : {};
  }
  // Throws unless a status is OK.
  check(status, place = this.number(outcome.place)) {
    if (status === OK) return;
    throw new DnsTextError(status, this.message(status), { offset: this.offset(place), ...this.opened(status, 0) });
  }
  // Stores an absolute name, and returns its pointer and length.
  name(text) {
    if (text === '') return [0n, 0n];
    this.check(this.calls.dnstext_name_read(...this.put(text), this.pointer(NAME), 255n, this.pointer(NUMBER), this.outcome));
    const length = BigInt(this.number(outcome.length));
    this.check(this.octets[NUMBER] ? OK : RELATIVE_NAME, this.length);
    return [this.pointer(NAME), length];
  }
  // Begins to read a text, with the state of the instance whose text includes it.
  begin(text, parent) {
    this.put(text, MOST_DATA);
    for (const [member, start] of [['offset', 0], ['line', 1], ['column', 1]]) this.store(position[member], start);
    if (!parent) return this;
    this.octets.set(parent.slice(zone.start, zone.size), zone.start);
    this.store(zone.at, 0);
    if (parent.number(record.name + kept_name.length)) this.octets.set(parent.slice(record.name, kept_name.size), zone.origin);
    return this;
  }
}

class ZoneRecord {
  #library;
  constructor(library, owner, name, ttl, rdclass, type, code, data, line, offset, end, file) {
    this.#library = library; this.owner = owner; this.name = name; this.ttl = ttl; this.class = rdclass; this.type = type;
    this.code = code; this.data = data; this.line = line; this.offset = offset; this.end = end; this.file = file;
  }
  get text() { return this.#library.formatData(this.code, this.data); }
}

class DnsText {
  #module; #free = []; #words = { type: new Map(), class: new Map() };
  constructor(module) {
    this.#module = module;
    const { calls } = this.#with(it => need(it, it.calls.dnstext_record_print, 'module', `that of dnstext ${VERSION}`));
    this.version = VERSION + (calls.dnstext_unproved ? ' (not proved)' : '');
  }
  // Returns an instance that nobody else uses. It is used again, unless its memory has grown.
  #take() { return this.#free.pop() ?? new Instance(this.#module); }
  #give(it) { if (it.octets.length <= MOST_KEPT && this.#free.length < MOST_FREE) this.#free.push(it); }
  // Runs with an instance, which is dropped if anything but a call fails, as after a trap.
  #with(run) {
    const it = this.#take();
    let isWell = true;
    try { return run(it); } catch (error) { isWell = error instanceof DnsTextError; throw error; }
    finally { if (isWell) this.#give(it); }
  }
  // Returns the octets that a call writes: with words before the text, if there is one, and an origin after it.
  #octets(call, words, text, origin) {
    return this.#with(it => {
      const name = origin === undefined ? [] : it.name(needText(origin, 'origin')), put = it.put(text ?? '');
      const all = [...words, ...text === undefined ? [] : put, ...name];
      it.check(it.fill((...to) => it.calls[`dnstext_${call}`](...all, ...to)));
      return it.slice(it.out, it.written);
    });
  }
  #string(...words) { return decoder.decode(this.#octets(...words)); }
  // Returns the number that a call writes, of a text, or of octets and others.
  #number(call, get, text, others) {
    return this.#with(it => {
      const words = [...it.put(text, others?.length), ...others ? [it.pointer(it.out), BigInt(others.length)] : []];
      it.octets.set(others ?? [], it.out);
      it.check(it.calls[`dnstext_${call}`](...words, it.pointer(NUMBER), it.outcome));
      return it.view[get](NUMBER, true);
    });
  }
  #code(kind, word) {
    if (typeof word === 'number') return needNumber(word, 65535, kind);
    return this.#number(`${kind}_read`, 'getUint16', needText(word, kind));
  }
  #word(kind, code, words = this.#words[kind]) {
    if (!words.has(code)) words.set(code, this.#string(`${kind}_print`, [code]));
    return words.get(code);
  }

  parseType(text) { return this.#code('type', needText(text, 'type')); }
  formatType(code) { return this.#word('type', needNumber(code, 65535, 'type')); }
  parseClass(text) { return this.#code('class', needText(text, 'class')); }
  formatClass(code) { return this.#word('class', needNumber(code, 65535, 'class')); }
  parseTtl(text) { return this.#number('ttl_read', 'getUint32', needText(text, 'ttl')); }
  parseName(text, origin = '') { return this.#octets('name_read_octets', [], needText(text, 'name'), origin); }
  formatName(octets) { return this.#string('name_print_zone', [], needOctets(octets, 'name')); }
  compareNames(a, b) { return this.#number('name_compare', 'getInt32', needOctets(a, 'name'), needOctets(b, 'name')); }
  parseData(type, text, origin = '') {
    return this.#octets('data_read', [this.#code('type', type)], needText(text, 'text'), origin);
  }
  formatData(type, octets) { return this.#string('data_print', [this.#code('type', type)], needOctets(octets, 'data')); }
  canonicalData(type, octets) { return this.#octets('data_canonical', [this.#code('type', type)], needOctets(octets, 'data')); }
  textData(text) { return this.#octets('text_data', [], needText(text, 'text')); }
  records(text, { origin = '', ttl, rdclass = 'IN', include, maxGenerate = 65536 } = {}) {
    needText(text, 'text');
    if (ttl !== undefined) needNumber(ttl, MOST_TTL, 'ttl');
    need(include, include === undefined || typeof include === 'function', 'include', 'a function');
    needNumber(maxGenerate, MOST_GENERATE, 'maxGenerate');
    const code = this.#code('class', rdclass);
    this.#with(it => it.name(needText(origin, 'origin')));
    const it = this.#take(), start = it.pointer(zone.start);
    it.calls.dnstext_zone_init(start);
    it.calls.dnstext_zone_origin(start, ...it.name(origin), it.outcome);
    it.view.setUint16(zone.class_code, code, true);
    it.octets[zone.has_default_ttl] = ttl === undefined ? 0 : 1;
    it.view.setUint32(zone.default_ttl, ttl ?? 0, true);
    return this.#read(it.begin(text), { include, maxGenerate, depth: 0 });
  }
  // Yields the records and the errors of the text of an instance, and returns its TTLs, with their flags. For entries of
  // a $GENERATE `how.at` is where that is, and an error ends them.
  *#read(it, how) {
    const { calls: { dnstext_record_next: next, dnstext_name_print_zone: print }, text: [text, length] } = it;
    const starts = [zone.start, record.start, record.name + kept_name.octets, it.out], most = BigInt(MOST_DATA);
    const [state, item, owner, out] = starts.map(at => it.pointer(at));
    try {
      for (;;) {
        const from = it.number(zone.at), status = next(text, length, state, item, out, most, it.outcome);
        if (status === END) return it.slice(zone.has_default_ttl, zone.last_ttl + 4 - zone.has_default_ttl);
        const written = it.number(outcome.length), isEntry = status === OK || status === INCLUDE || status === GENERATE;
        const place = it.number(isEntry ? record.place : outcome.place), at = how.at ?? it.where(place);
        if (status === OK) {
          const end = how.end ?? it.offset(it.number(record.end)), size = it.number(record.name + kept_name.length);
          const name = it.slice(record.name + kept_name.octets, size), data = it.slice(it.out, written);
          const rdclass = it.view.getUint16(record.class_code, true), code = it.view.getUint16(record.type_code, true);
          print(owner, BigInt(size), out, most, it.outcome);
          const words = [it.string(it.out, it.number(outcome.length)), name, it.number(record.ttl), this.#word('class', rdclass)];
          yield new ZoneRecord(this, ...words, this.#word('type', code), code, data, at.line, at.offset, end, how.file);
        } else if (status === INCLUDE) yield* this.#include(it, it.string(it.out, written), at, how);
        else if (status === GENERATE) yield* this.#generate(it, place, at, how);
        else {
          const message = it.message(status, written), opened = how.at ? {} : it.opened(status, from);
          yield new DnsTextError(status, message, { ...at, ...opened, file: how.file });
          if (how.at) return undefined;
        }
      }
    } catch (error) { it = undefined; throw error; } finally { if (it) this.#give(it); }
  }
  // Reads a text with the state of the instance whose text includes it, and copies its TTLs back. Returns whether it ended.
  *#follow(it, text, how) {
    const ttls = yield* this.#read(this.#take().begin(text, it), how);
    if (ttls) it.octets.set(ttls, zone.has_default_ttl);
    return ttls !== undefined;
  }
  *#include(it, file, at, how) {
    const isDeep = how.depth === MOST_DEEP, text = isDeep ? undefined : how.include?.(file);
    const why = isDeep ? `more than ${MOST_DEEP} levels` : how.include ? 'not found' : 'not read here';
    if (text === undefined) yield new DnsTextError(INCLUDE, `$INCLUDE ${file}: ${why}`, { ...at, file: how.file });
    else yield* this.#follow(it, needText(text, 'include'), { ...how, file, depth: how.depth + 1 });
  }
  *#generate(it, place, at, how) {
    const text = [it.pointer(TEXT + place), BigInt(it.number(zone.at) - place)], where = { ...at, file: how.file };
    const inner = { ...how, at, end: it.offset(it.number(record.end)), depth: how.depth + 1 };
    for (let index = 0; ; index++) {
      const call = (...to) => it.calls.dnstext_generate_entry(...text, BigInt(index), it.pointer(NUMBER), ...to);
      const status = it.fill(call, MOST_DATA), entry = it.slice(it.out, it.written);
      if (status === END) return;
      if (status !== OK) return yield new DnsTextError(status, it.message(status), where);
      if (index === how.maxGenerate) return yield new DnsTextError(GENERATE, `more than ${index} entries`, where);
      if (!(yield* this.#follow(it, entry, inner))) return;
    }
  }
}

// Returns the module beside this file. Node's fetch reads no file.
async function ownModule(url = new URL('./dnstext.wasm', import.meta.url)) {
  const isFile = url.protocol === 'file:' && globalThis.process?.versions?.node;
  return isFile ? (await import(/* webpackIgnore: true */ 'node:fs/promises')).readFile(url) : fetch(url);
}

/** Compiles the module: dnstext.wasm beside this file, or a module, its octets, a Response, or a Promise of one. */
export async function load(source) {
  let from = await (source ?? ownModule());
  if (typeof from.arrayBuffer === 'function') {
    if (!from.ok) throw new Error(`${from.url}: status ${from.status}`);
    from = await from.arrayBuffer();
  }
  return new DnsText(from instanceof WebAssembly.Module ? from : await WebAssembly.compile(from));
}
