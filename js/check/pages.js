// Drives both example pages by events, as a user who types, jumps to an error and mends it.
const $ = (page, id) => page.getElementById(id);
const sleep = time => new Promise(done => { setTimeout(done, time); });

async function until(what, holds) {
  for (let n = 0; n < 400; n++) {
    if (holds()) return;
    await sleep(25);
  }
  throw new Error(`not seen: ${what}`);
}

// Opens a page in a frame, and waits until it has loaded the library.
async function open(path) {
  const frame = document.createElement('iframe');
  Object.assign(frame, { src: path, width: 1100, height: 900 });
  const loaded = new Promise(done => { frame.addEventListener('load', done); });
  document.body.append(frame);
  await loaded;
  const page = frame.contentDocument;
  await until(`${path} is ready`, () => $(page, 'said').textContent !== 'The library is loading.');
  return page;
}

function type(page, id, text) {
  $(page, id).value = text;
  $(page, id).dispatchEvent(new Event('input', { bubbles: true }));
}

function expect(what, actual, wanted) {
  if (actual !== wanted) throw new Error(`${what}: ${JSON.stringify(actual)}, wanted ${JSON.stringify(wanted)}`);
}

function expectLabels(page) {
  for (const it of page.querySelectorAll('input, textarea')) expect(`labels of ${it.id}`, it.labels.length, 1);
}

async function driveForm() {
  const page = await open('../examples/form.html'), said = () => $(page, 'said').textContent;
  expectLabels(page);
  expect('error', said(), 'Character 1: MX: preference: decimal number overflow');
  expect('invalid', $(page, 'value').getAttribute('aria-invalid'), 'true');
  type(page, 'value', '10 mail.example.');
  expect('result', said(), '16 octets of record data');
  expect('octets', $(page, 'octets').textContent, '00 0a 04 6d 61 69 6c 07 65 78 61 6d 70 6c 65 00');
  expect('valid', $(page, 'value').getAttribute('aria-invalid'), null);
  type(page, 'value', '10\u00a0é mail');
  expect('no result', $(page, 'result').hidden, true);
  type(page, 'type', 'A');
  type(page, 'value', '( 192.0.2.1\n 😀 )');
  expect('place', said().split(':')[0], 'Character 14');
  expect('caret', page.querySelector('#caret .same').textContent, ' ');
  type(page, 'type', 'TXT');
  type(page, 'value', 'v=DKIM1; k=rsa; p=AAAA');
  expect('text', $(page, 'text').textContent.includes('; k=rsa; p=AAAA'), true);
  type(page, 'type', 'NONE');
  expect('type', said(), 'Type: unknown record type');
  expect('invalid type', $(page, 'type').getAttribute('aria-invalid'), 'true');
}

async function driveZone() {
  const page = await open('../examples/zone.html'), zone = $(page, 'zone'), view = page.defaultView;
  const said = () => $(page, 'said').textContent, buttons = () => [...page.querySelectorAll('#errors button')];
  expectLabels(page);
  await until('two errors', () => said() === '9 records, 2 errors');
  expect('error', buttons()[0].textContent, 'Line 4: A: address: expected IPv4 address');
  expect('marks', [...page.querySelectorAll('mark')].map(it => it.textContent).join(), '192.0.2.256,"v=spf1');
  buttons()[0].click();
  expect('focus', page.activeElement, zone);
  expect('selected', zone.value.slice(zone.selectionStart, zone.selectionEnd), '192.0.2.256');
  zone.setRangeText('192.0.2.25');
  zone.dispatchEvent(new Event('input', { bubbles: true }));
  await until('one error', () => said() === '10 records, 1 error');
  const rows = [...page.querySelectorAll('#rows tr')].map(it => [...it.cells].map(cell => cell.textContent).join(' '));
  expect('record', rows[2], '4 ns1.example. 3600 IN A 192.0.2.25');
  zone.value = zone.value.replace('-all', '-all"');
  zone.dispatchEvent(new Event('input', { bubbles: true }));
  await until('no error', () => said() === '11 records, 0 errors');
  expect('marks', page.querySelectorAll('mark').length, 0);
  type(page, 'origin', 'example');
  await until('an error of the origin', () => $(page, 'origin-said').textContent !== '');
  type(page, 'origin', 'example.');
  const owner = `${'a'.repeat(60)}.${'b'.repeat(20)}`;
  type(page, 'zone', `$TTL 5\n${owner} A 192.0.2.1\n`.padEnd(20) + 'a A 192.0.2.1\n'.repeat(1000));
  await until('1,001 records', () => said() === '1001 records, 0 errors');
  expect('rows', page.querySelectorAll('#rows tr').length, 500);
  expect('caption', $(page, 'caption').textContent, 'The first 500 records');
  const [first, second] = [...page.querySelectorAll('#rows tr')].map(it => it.getBoundingClientRect().height);
  expect('one line for an owner', Math.round(first), Math.round(second));
  expect('width', view.document.documentElement.scrollWidth <= view.innerWidth, true);
}

/** Returns a line for each page. */
export async function drive() {
  const lines = [];
  for (const [name, run] of [['form.html', driveForm], ['zone.html', driveZone]]) {
    const start = performance.now();
    try {
      await run();
      lines.push(`ok ${name} in ${Math.round(performance.now() - start)} ms`);
    } catch (error) { lines.push(`FAILED ${name}: ${error.message}`); }
  }
  return lines;
}
