'use strict';
// The page of powerbook: it shows what the routes tell, draws it, and sends files and rows.
// It computes no figure but sums, and holds each of them against the server's own.
// Texts are put as texts (textContent), never as markup. Instants are in UTC, money in nano-euro.

// All words of the page, by language: another language is another table.
const WORDS = {
  en: {
    title: 'powerbook', office: 'Office', skip: 'To the content', loading: 'Loading ...',
    noAnswer: 'The server gives no answer. What was sent may be sent again: that does no harm.',
    asked: '{0} was asked for, and the answer was: {1}',
    accounts: 'Accounts', account: 'Account', balance: 'Balance EUR', search: 'Search',
    order: 'Order', lowest: 'Lowest balance first', byName: 'By name', open: 'Open',
    month: 'Month', shown: '{0} of {1} shown', more: 'Show {0} more',
    tables: 'Tables', disputes: 'Disputes', falls: 'Falls', withdrawals: 'Withdrawals',
    assignments: 'Assignments', topups: 'Top-ups', readings: 'Readings of the meter {0}',
    readingsOf: 'Readings of a meter', meter: 'Meter', register: 'Register', instant: 'Local time',
    start: 'From (local time)', utc: 'UTC', kwh: 'kWh', state: 'State', records: 'Records',
    kind: 'Kind', reference: 'Reference', amount: 'Amount EUR', nobody: 'nobody', way: 'Ways',
    toReadings: 'Readings', withdraw: 'Withdraw', fell: 'Fell from kWh', to: 'to kWh',
    before: 'at (local time)', behind: 'and at (local time)', empty: 'There are none.',
    states: { 1: 'counts', 0: 'in dispute', w: 'withdrawn' },
    kinds: { reading: 'reading', assignment: 'assignment', topup: 'top-up' },
    upload: 'Send files', drop: 'Drop files here: telegrams, readouts, assignments, top-ups or '
      + 'withdrawals. Or choose them:', files: 'Files', readoutMeter: 'Meter of the readouts',
    readoutHint: 'Only for readouts: state the meter before you drop them.',
    progress: '{0} of {1} files', answers: 'Answers', whole: '{0}: {1}',
    part: '{0}: part {1} of {2}, {3} {4} to {5}: {6}', unsent: '{0}: not sent. {1}',
    frames: 'frames', rows: 'rows', place: ' (number {0} of the file)',
    again: '{0} To send the file again does no harm.',
    noneHeld: 'Nothing of it is held by this sending.',
    firstHeld: 'Part 1 is held, the others are not.',
    someHeld: 'Parts 1 to {0} are held, the others are not.',
    noneSure: 'Whether what was sent of it is held is not known.',
    firstSure: 'Part 1 is held, of part 2 that is not known, the others are not.',
    someSure: 'Parts 1 to {0} are held, of part {1} that is not known, the others are not.',
    why: {
      kind: 'It is none of the five kinds: it begins neither with a frame nor with a header.',
      meter: 'It has readouts: state their meter first.',
      readout: 'Readouts of more than 262,144 bytes or 64 frames cannot be cut surely.',
      quote: 'Rows with quotes, of more than 262,144 bytes or 1,000 rows, cannot be cut surely.',
      frame: 'Of more than 262,144 bytes or 64 frames, it has something that is no whole telegram.',
      long: 'It has a frame or a row of more than 262,144 bytes.',
      read: 'It cannot be read.',
    },
    topUp: 'Top up an account', assign: 'Assign a meter', withdrawOne: 'Withdraw a record',
    euro: 'Amount in EUR', wh: 'Wh', toNobody: 'Account (empty: nobody)',
    fold: 'It comes twice', summer: 'first, in summer time', winter: 'second, in winter time',
    gap: 'This local time does not occur.', showRow: 'Show the row', row: 'This row is sent:',
    send: 'Send this row', bad: 'This is not written as it has to be: {0}',
    months: ['January', 'February', 'March', 'April', 'May', 'June', 'July', 'August',
      'September', 'October', 'November', 'December'],
    monthOf: 'Account {0}, {1} {2}', earlier: 'Earlier month', later: 'Later month',
    print: 'Print', bill: 'Bill', what: 'What', toppedUp: 'Topped up',
    begins: 'Balance at the begin', ends: 'Balance at the end', rounding: 'Rounding',
    period: 'Prices since {0} local time (UTC: {1})',
    band: 'Band', direction: 'Direction', import: 'import', export: 'export',
    importKwh: 'Import kWh', importEur: 'Import EUR', exportKwh: 'Export kWh',
    exportEur: 'Export EUR', bandImport: 'Import {0} kWh', bandExport: 'Export {0} kWh',
    span: 'From {0} to {1} local time (UTC: {2} to {3}).', held: '{0} records are held.',
    readUpTo: '{0} is read up to {1} local time (UTC: {2}).', neverRead: '{0} was never read.',
    chart: 'Energy by day: import above the line, export below, by band', day: 'Day',
    days: 'Days', whyTitle: 'Why: each piece of energy, with the two readings it comes from',
    whyHint: 'A row shows both readings of its pair, whole: where the meter changed hands between '
      + 'them, also what the former or the next owner used.',
    from: 'Reading at (local time)', until: 'and at (local time)', low: 'Reading kWh',
    high: 'and kWh', begin: 'Piece from (local time)', end: 'to (local time)', cost: 'EUR',
    wrongSum: 'These figures do not agree: {0}. Tell who keeps the server.',
    wrongEnergy: '{0} {1}: the bill has {2} Wh, {3} have {4} Wh',
    wrongCost: '{0}: the bill has EUR {1}, {2} have EUR {3}',
    wrongNano: '{0} {1}: the days cost {2} nano-euro, the pieces {3}',
    wrongTopups: 'the bill has EUR {0} topped up, its top-ups are EUR {1}',
    wrongBalance: 'the balance at the end is not what leads to it',
    theDays: 'the days', thePieces: 'the pieces', record: 'Record', together: 'Together',
  },
};
const language = 'en';
const said = WORDS[language];

const MOST_BYTES = 262144, MOST_FRAMES = 64, MOST_ROWS = 1000, STEP = 200, TRIES = 5;
const HEADERS = {
  assignments: 'meter,start,account',
  topups: 'reference,account,cents,instant',
  withdrawals: 'kind,first,second,third,fourth',
};
const NAME = /^[A-Za-z0-9_\-]{1,192}$/;
const NANO_PER_CENT = 10000000n;

// ---- Words, numbers and times

function fill(text, ...values) {
  return text.replace(/\{(\d)\}/g, (_, place) => values[place]);
}

// An amount in cents, as 12.34.
function euro(cents) {
  const digits = String(cents < 0n ? -cents : cents).padStart(3, '0');
  return `${cents < 0n ? '-' : ''}${digits.slice(0, -2)}.${digits.slice(-2)}`;
}

// The cents of a text as 12.34 or -0.05.
function centsOf(text) {
  return BigInt(text.replace('.', ''));
}

// Nano-euro, none of them below zero, rounded down to the cent.
function euroOfNano(nano) {
  return euro(nano / NANO_PER_CENT);
}

// Watt-hours as kWh with three decimals.
function kwh(wh) {
  const digits = String(wh).padStart(4, '0');
  return `${digits.slice(0, -3)}.${digits.slice(-3)}`;
}

function secondsOf(instant) {
  return Date.parse(instant) / 1000;
}

function instantOf(seconds) {
  return `${new Date(seconds * 1000).toISOString().slice(0, 19)}Z`;
}

// When clocks change in March (2) or October (9): the last Sunday, 01:00 UTC.
function change(year, month) {
  const last = Date.UTC(year, month, 31) / 1000;
  return last - new Date(last * 1000).getUTCDay() * 86400 + 3600;
}

// What Central European time is ahead of UTC, in seconds.
function ahead(seconds) {
  const year = new Date(seconds * 1000).getUTCFullYear();
  return change(year, 2) <= seconds && seconds < change(year, 9) ? 7200 : 3600;
}

// The local time of an instant, as 2024-01-02 06:00:00.
function localOf(instant) {
  const seconds = secondsOf(instant);
  return instantOf(seconds + ahead(seconds)).slice(0, 19).replace('T', ' ');
}

// The instants at which local clocks show this time: none in the gap, two in the fold.
function instantsOf(local) {
  const bare = secondsOf(`${local.length === 16 ? `${local}:00` : local}Z`);
  return [7200, 3600].map((it) => bare - it).filter((it) => it + ahead(it) === bare)
    .map(instantOf);
}

// The month before or behind one, as 2024-01.
function monthBeside(month, step) {
  const [year, number] = month.split('-').map(Number);
  return new Date(Date.UTC(year, number - 1 + step, 1)).toISOString().slice(0, 7);
}

function monthName(month) {
  return said.months[Number(month.slice(5)) - 1];
}

// ---- The server's pages, each read by one function

function linesOf(text) {
  return text.split('\n').filter((it) => it !== '');
}

// Rows of a CSV page as objects by the header's names; no field of the server has a quote.
function csvOf(text) {
  const [header, ...rows] = linesOf(text).map((it) => it.split(','));
  return rows.map((row) => Object.fromEntries(header.map((name, at) => [name, row[at]])));
}

// account, balance EUR
function accountsOf(text) {
  return linesOf(text).slice(1).map((it) => it.split(/ +/))
    .map(([name, balance]) => ({ name, cents: centsOf(balance), balance }));
}

// key records: reading METER REGISTER INSTANT, assignment METER START, topup REFERENCE
function disputesOf(text) {
  return linesOf(text).slice(1).map((it) => it.split(' '))
    .map((it) => ({ kind: it[0], key: it.slice(1, -1), records: it[it.length - 1] }));
}

// meter register from wh to wh
function fallsOf(text) {
  return linesOf(text).slice(1).map((it) => it.split(' '))
    .map(([meter, register, from, high, to, low]) => ({ meter, register, from, high, to, low }));
}

// The bill of a month: amounts by name, energies by period and band, and of each meter and register
// what it is read up to (null where it was never read).
function billOf(text) {
  const bill = { periods: [], readUpTo: [], rounding: '0.00' };
  for (const line of linesOf(text)) {
    const row = line.split(/ +/);
    const amount = /^(begin|topped up|import|export|rounding|end) EUR (-?\d+\.\d\d)$/.exec(line);
    if (amount) [, , bill[amount[1]]] = amount;
    else if (row[0] === 'records') [, bill.records] = row;
    else if (row[0] === 'period') bill.periods.push({ start: row[1], bands: [] });
    else if (line.startsWith('read up to ')) {
      const [meter, register, instant] = row.slice(3);
      bill.readUpTo.push({ meter, register, instant: instant === 'never' ? null : instant });
    } else if (/^[A-Z] +\d/.test(line)) {
      const [band, importWh, importEur, exportWh, exportEur] = row;
      const { bands } = bill.periods[bill.periods.length - 1];
      bands.push({ band, importWh, importEur, exportWh, exportEur });
    }
  }
  return bill;
}

// day,band,direction,wh,nano
function daysOf(text) {
  return csvOf(text).map((it) => ({ ...it, wh: BigInt(it.wh), nano: BigInt(it.nano) }));
}

// kind,meter,register,from,low,to,high,begin,end,period,band,wh,nano, the kind import or export;
// then topup,reference,account,cents,instant
function whyOf(text) {
  const rows = csvOf(text);
  const pieces = rows.filter((it) => it.kind !== 'topup')
    .map((it) => ({ ...it, direction: it.kind, wh: BigInt(it.wh), nano: BigInt(it.nano) }));
  const topups = rows.filter((it) => it.kind === 'topup')
    .map((it) => ({ reference: it.meter, cents: BigInt(it.from), instant: it.low }));
  return { pieces, topups };
}

// ---- Asking and sending

class Told extends Error {}

// The text of a page; what isn't one is told as an error.
async function ask(path) {
  const { status, text } = await talk(path, { cache: 'no-store' });
  if (status !== 200) throw new Told(fill(said.asked, path, text));
  return text;
}

async function talk(path, options) {
  try {
    const reply = await fetch(path, options);
    const text = await reply.text();
    return { status: reply.status, text: options.method === 'POST' ? text.trim() : text };
  } catch {
    throw new Told(said.noAnswer);
  }
}

function sendBody(path, body) {
  return talk(path, { method: 'POST', body });
}

// ---- Files, cut into parts

// Bytes as a text of as many characters.
function lettersOf(bytes) {
  const parts = [];
  for (let at = 0; at < bytes.length; at += 8192) {
    parts.push(String.fromCharCode(...bytes.subarray(at, at + 8192)));
  }
  return parts.join('');
}

// A file's kind by how it begins, where its content begins; null for none.
function kindOf(text) {
  const begin = text.startsWith('\xEF\xBB\xBF') ? 3 : 0;
  const rows = /^(?:\r?\n)*(.*?)\r?(?:\n|$)/.exec(text.slice(begin, begin + 1000));
  const named = Object.keys(HEADERS).find((it) => rows && rows[1] === HEADERS[it]);
  if (named) return { kind: named, begin };
  if (!/^(?:\r\n)*\//.test(text)) return null;
  const frame = text.slice(0, (text.indexOf('\r\n!') + 1 || text.length + 1) - 1);
  return { kind: frame.includes('\r\n\x02') ? 'readouts' : 'telegrams', begin: 0 };
}

// Where each whole telegram begins and ends; null where something else stands in the file.
function framesOf(text) {
  const frames = [];
  for (let at = 0; ;) {
    while (text.startsWith('\r\n', at)) at += 2;
    if (at === text.length) return frames;
    const end = text.indexOf('\r\n!', at) + 9;
    const trailer = /^[0-9A-Fa-f]{4}\r\n$/.test(text.slice(end - 6, end));
    if (text[at] !== '/' || end < 9 || !trailer) return null;
    frames.push([at, end]);
    at = end;
  }
}

// Where each row that isn't blank begins and ends, with its line end.
function rowsOf(text, begin) {
  const rows = [];
  for (let at = begin; at < text.length;) {
    const end = text.indexOf('\n', at) + 1 || text.length;
    if (!/^\r?\n?$/.test(text.slice(at, end))) rows.push([at, end]);
    at = end;
  }
  return rows;
}

// Places one behind the other in groups of so many and so many bytes; null where one has more.
function grouped(places, most, room) {
  const groups = [];
  let group = null;
  for (const [number, [from, to]] of places.entries()) {
    if (to - from > room) return null;
    if (!group || group.count === most || to - group.from > room) {
      group = { from, first: number + 1, count: 0 };
      groups.push(group);
    }
    group.to = to;
    group.count += 1;
  }
  return groups;
}

// The bodies that a file is sent in, or why it can't be cut.
function partsOf(bytes, text, { kind, begin }) {
  const whole = { parts: [{ body: bytes, first: 1, count: 0 }] };
  const small = bytes.length <= MOST_BYTES;
  if (kind === 'readouts') {
    return small && text.split('!\r\n\x03').length - 1 <= MOST_FRAMES ? whole : { why: 'readout' };
  }
  const framed = kind === 'telegrams';
  const places = framed ? framesOf(text) : rowsOf(text, begin);
  if (!places) {
    return small && text.split('\r\n!').length - 1 <= MOST_FRAMES ? whole : { why: 'frame' };
  }
  const [head, ...rows] = framed ? [[0, 0], ...places] : places;
  const most = framed ? MOST_FRAMES : MOST_ROWS;
  if (small && rows.length <= most) return whole;
  if (!framed && text.includes('"')) return { why: 'quote' };
  const header = bytes.subarray(...head);
  const groups = grouped(rows, most, MOST_BYTES - header.length);
  if (!groups) return { why: 'long' };
  return { parts: groups.map((it) => ({
    ...it, body: new Blob([header, bytes.subarray(it.from, it.to)]),
  })) };
}

// A server's line of a part, with the place in the file where its part's number isn't that.
function placed(line, first) {
  const number = /^refused .* part (\d+)/.exec(line);
  if (!number || first === 1 || number[1] === '0') return line;
  return line + fill(said.place, first - 1 + Number(number[1]));
}

// What is held of a file where so many parts were taken, and the next one was refused for sure, or
// no answer came to it.
function heldOf(parts, sure) {
  const [none, first, some] = sure ? [said.noneHeld, said.firstHeld, said.someHeld]
    : [said.noneSure, said.firstSure, said.someSure];
  return parts > 1 ? fill(some, parts, parts + 1) : [none, first][parts];
}

// Sends a file in parts, one behind the other, to the first that isn't taken.
async function sendFile(file, meter, tell) {
  const unsent = (why) => tell('refused', fill(said.unsent, file.name, said.why[why]));
  let bytes;
  try {
    bytes = new Uint8Array(await file.arrayBuffer());
  } catch {
    return unsent('read');
  }
  const text = lettersOf(bytes);
  const kind = kindOf(text);
  if (!kind) return unsent('kind');
  if (kind.kind === 'readouts' && !NAME.test(meter)) return unsent('meter');
  const { parts, why } = partsOf(bytes, text, kind);
  if (why) return unsent(why);
  const path = kind.kind === 'readouts' ? `/meters/${meter}/readouts` : `/${kind.kind}`;
  const unit = kind.kind === 'telegrams' ? said.frames : said.rows;
  for (const [at, { body, first, count }] of parts.entries()) {
    let told;
    try {
      told = await sendBody(path, body);
    } catch (fault) {
      told = { status: 0, text: fault.message };
    }
    const taken = told.status === 200 ? 'taken' : 'refused';
    const line = placed(told.text, first);
    tell(taken, parts.length === 1 ? fill(said.whole, file.name, line)
      : fill(said.part, file.name, at + 1, parts.length, unit, first, first + count - 1, line));
    if (taken === 'refused') return tell('note', fill(said.again, heldOf(at, told.status !== 0)));
  }
  return undefined;
}

// ---- Elements

function put(node, children) {
  const kept = children.flat().filter((it) => it !== null && it !== undefined && it !== '');
  if (kept.length === 1 && typeof kept[0] === 'string') [node.textContent] = kept;
  else node.replaceChildren(...kept);
  return node;
}

function dress(node, attributes) {
  for (const [name, value] of Object.entries(attributes)) {
    if (typeof value === 'function') node.addEventListener(name, value);
    else if (value !== false && value !== undefined) node.setAttribute(name, value);
  }
  return node;
}

// An element with attributes (those that are functions listen) and children or a text.
function made(tag, attributes, ...children) {
  return put(dress(document.createElement(tag), attributes), children);
}

function drawn(tag, attributes, ...children) {
  return put(dress(document.createElementNS('http://www.w3.org/2000/svg', tag), attributes),
    children);
}

function link(path, text, ...more) {
  const name = more.length ? { 'aria-label': `${text} ${more.join(' ')}` } : {};
  return made('a', { href: `#/${path.map(encodeURIComponent).join('/')}`, ...name }, text);
}

function button(text, click) {
  return made('button', { type: 'button', click }, text);
}

function labelled(text, control) {
  return made('label', {}, made('span', {}, text), control);
}

function select(options, attributes = {}) {
  return made('select', attributes,
    Object.entries(options).map(([value, text]) => made('option', { value }, text)));
}

function section(title, ...children) {
  return made('section', {}, made('h2', {}, title), ...children);
}

// An instant as local time, and as the UTC that stands in the column beside it.
function times(instant) {
  return [made('time', { datetime: instant }, localOf(instant)),
    made('span', { class: 'utc' }, instant)];
}

// A table: its heads are texts, those of numbers with a # in front. A row of one cell is as wide as
// the table.
function table(caption, heads, rows) {
  const plain = heads.map((it) => it.replace(/^#/, ''));
  const side = heads.map((it) => (it.startsWith('#') ? { class: 'number' } : {}));
  const cell = (it, at, row) => made(at ? 'td' : 'th', {
    ...side[at], ...(at ? {} : { scope: 'row' }),
    ...(row.length === 1 ? { colspan: heads.length } : {}),
  }, ...[it].flat());
  return made('div', { class: 'scroll', role: 'region', tabindex: '0', 'aria-label': caption },
    made('table', {}, made('caption', {}, caption),
      made('thead', {}, made('tr', {}, plain.map((it, at) => made('th',
        { scope: 'col', ...side[at] }, it)))),
      made('tbody', {}, rows.map((row) => made('tr', {}, row.map(cell))))));
}

// A table of things with a search box, of which so many rows are shown at first, and more on
// demand. A thing's words are what is searched in; its row is made when it is shown.
function searched(caption, heads, things, { words, row, begin = '' }) {
  const place = made('div', {});
  const count = made('p', { role: 'status' });
  const box = made('input', { type: 'search', value: begin });
  const known = things.map((it) => words(it).toLowerCase());
  let most = STEP;
  const show = () => {
    const wanted = box.value.trim().toLowerCase();
    const found = things.filter((_, at) => known[at].includes(wanted));
    const left = found.length - most;
    put(count, [fill(said.shown, Math.min(most, found.length), things.length)]);
    put(place, [found.length ? table(caption, heads, found.slice(0, most).map(row))
      : made('p', {}, said.empty),
    left > 0 ? button(fill(said.more, Math.min(left, STEP)), () => { most += STEP; show(); })
      : null]);
  };
  box.addEventListener('input', () => { most = STEP; show(); });
  show();
  return made('div', {}, labelled(said.search, box), count, place);
}

// A place whose content comes later, or the words of what went wrong.
function later(making) {
  const place = made('div', { 'aria-busy': 'true' }, made('p', {}, said.loading));
  making().then((it) => put(place, [it].flat()), (fault) => put(place, [wrong(fault.message)]))
    .finally(() => place.removeAttribute('aria-busy'));
  return place;
}

function wrong(text) {
  return made('p', { class: 'wrong', role: 'alert' }, text);
}

// ---- The office

async function accountsTable() {
  const accounts = accountsOf(await ask('/accounts'));
  const orders = {
    lowest: (a, b) => (a.cents < b.cents ? -1 : Number(a.cents > b.cents)),
    byName: (a, b) => (a.name < b.name ? -1 : Number(a.name > b.name)),
  };
  const place = made('div', {});
  const order = select({ lowest: said.lowest, byName: said.byName }, { id: 'order' });
  const show = () => put(place, [searched(said.accounts, [said.account, `#${said.balance}`],
    [...accounts].sort(orders[order.value]), {
      words: (it) => it.name,
      row: (it) => [link(['account', it.name], it.name),
        made('span', { class: it.cents < 0n ? 'below' : 'above' }, it.balance)],
    })]);
  order.addEventListener('change', show);
  show();
  return [labelled(said.order, order), place];
}

function withdrawLink(...fields) {
  return link(['withdraw', fields.join(',')], said.withdraw, ...fields);
}

// From a pair of readings to those of its meter, from the first of the two to the second.
function pairLink({ meter, register, from, to }) {
  let same = 0;
  while (same < from.length && from[same] === to[same]) same += 1;
  return link(['meter', meter, `${register} ${from.slice(0, same)}`], meter);
}

const TABLES = {
  disputes: async () => searched(said.disputes,
    [said.record, said.instant, said.utc, said.records, said.way],
    disputesOf(await ask('/disputes')), {
      words: (it) => [it.kind, ...it.key].join(' '),
      row: (it) => [...disputed(it), it.records, disputeWay(it)],
    }),
  falls: async () => searched(said.falls, [said.meter, said.register, said.before, said.utc,
    `#${said.fell}`, said.behind, said.utc, `#${said.to}`], fallsOf(await ask('/falls')), {
    words: (it) => `${it.meter} ${it.register}`,
    row: (it) => [pairLink(it), it.register,
      ...times(it.from), kwh(it.high), ...times(it.to), kwh(it.low)],
  }),
  withdrawals: async () => searched(said.withdrawals,
    [said.record, said.instant, said.utc, said.way], csvOf(await ask('/export/withdrawals')), {
      words: (it) => Object.values(it).join(' '),
      row: (it) => [...withdrawn(it),
        it.kind === 'topup' ? '' : link(['meter', it.first, ''], said.toReadings, it.first)],
    }),
  assignments: async () => searched(said.assignments,
    [said.meter, said.start, said.utc, said.account, said.way],
    csvOf(await ask('/export/assignments')), {
      words: (it) => Object.values(it).join(' '),
      row: (it) => [link(['meter', it.meter, ''], it.meter), ...times(it.start),
        it.account || said.nobody, withdrawLink('assignment', it.meter, it.start, it.account)],
    }),
  topups: async () => searched(said.topups,
    [said.reference, said.account, `#${said.amount}`, said.instant, said.utc, said.way],
    csvOf(await ask('/export/topups')), {
      words: (it) => Object.values(it).join(' '),
      row: (it) => [it.reference, link(['account', it.account], it.account),
        euro(BigInt(it.cents)), ...times(it.instant),
        withdrawLink('topup', it.reference, it.account, it.cents, it.instant)],
    }),
};

// What is in dispute, and its instant, if its key has one.
function disputed({ kind, key }) {
  const instants = key.filter((it) => /T.*Z$/.test(it));
  const named = key.filter((it) => !instants.includes(it));
  const told = instants.length ? times(instants[0]) : ['', ''];
  return [[said.kinds[kind], ...named].join(' '), ...told];
}

// A withdrawn record, and its instant.
function withdrawn({ kind, first, second, third, fourth }) {
  const told = {
    reading: () => [`${first} ${second} ${kwh(fourth)} ${said.kwh}`, ...times(third)],
    assignment: () => [`${first} ${third || said.nobody}`, ...times(second)],
    topup: () => [`${first} ${second} EUR ${euro(BigInt(third))}`, ...times(fourth)],
  };
  const [text, ...instant] = told[kind]();
  return [`${said.kinds[kind]} ${text}`, ...instant];
}

// From a dispute of readings to the readings of its register and instant; of the others to their
// meter, or to the top-ups.
function disputeWay({ kind, key }) {
  if (kind === 'topup') return said.topups;
  const filter = kind === 'reading' ? `${key[1]} ${key[2]}` : '';
  return link(['meter', key[0], filter], said.toReadings, ...key);
}

// The tables on demand: a button each, which opens and closes its table.
function tablesOnDemand() {
  return Object.keys(TABLES).map((name) => {
    const place = made('div', { id: `table-${name}` });
    const opener = button(said[name], () => {
      const open = opener.getAttribute('aria-expanded') === 'true';
      opener.setAttribute('aria-expanded', String(!open));
      put(place, open ? [] : [later(TABLES[name])]);
    });
    dress(opener, { 'aria-expanded': 'false', 'aria-controls': place.id, 'data-table': name });
    return made('div', { class: 'fold' }, opener, place);
  });
}

// The form that leads to a meter's readings.
function meterForm() {
  const meter = made('input', { required: '', pattern: NAME.source.slice(1, -1), name: 'meter' });
  return made('form', {
    class: 'line',
    submit: (event) => {
      event.preventDefault();
      window.location.hash = `#/meter/${meter.value}/`;
    },
  }, labelled(said.readingsOf, meter), made('button', {}, said.open));
}

function uploadArea(refresh) {
  const meter = made('input', { name: 'readoutMeter', 'aria-describedby': 'readoutHint' });
  const files = made('input', { type: 'file', multiple: '', id: 'files' });
  const bar = made('progress', { value: '0', max: '1', 'aria-label': said.upload, hidden: '' });
  const count = made('p', { role: 'status' });
  const answers = made('ol', { id: 'answers', 'aria-live': 'polite', 'aria-label': said.answers });
  const tell = (kind, text) => answers.append(made('li', { class: kind }, text));
  let queue = Promise.resolve();
  const send = async (chosen) => {
    bar.hidden = false;
    bar.value = 0;
    bar.max = chosen.length;
    for (const [at, file] of chosen.entries()) {
      await sendFile(file, meter.value.trim(), tell);
      bar.value = at + 1;
      put(count, [fill(said.progress, at + 1, chosen.length)]);
    }
    refresh();
  };
  const take = (chosen) => { queue = queue.then(() => send([...chosen])); };
  files.addEventListener('change', () => { take(files.files); files.value = ''; });
  const zone = made('div', {
    id: 'drop',
    class: 'drop',
    dragover: (event) => { event.preventDefault(); zone.classList.add('over'); },
    dragleave: () => zone.classList.remove('over'),
    drop: (event) => {
      event.preventDefault();
      zone.classList.remove('over');
      take(event.dataTransfer.files);
    },
  }, made('p', {}, said.drop), labelled(said.files, files));
  return section(said.upload, labelled(said.readoutMeter, meter),
    made('p', { id: 'readoutHint', class: 'hint' }, said.readoutHint), zone, bar, count, answers);
}

// ---- Forms of one row

// A field: its control, and the text that it gives in the row, null where it's wrong.
function textField(label, name, pattern, begin = '', turned = (it) => it) {
  const input = made('input', { name, value: begin, autocomplete: 'off' });
  const value = () => {
    const text = input.value.trim();
    return pattern.test(text) ? turned(text) : null;
  };
  return { label, node: labelled(label, input), value };
}

// A local time, with its UTC beside it, and a choice where clocks show it twice.
function timeField(label, name, begin = '') {
  const input = made('input', { type: 'datetime-local', step: '1', name });
  const twice = select({ 0: said.summer, 1: said.winter }, { name: `${name}Fold` });
  const fold = labelled(said.fold, twice);
  const utc = made('output', { class: 'utc' });
  const found = () => (input.value ? instantsOf(input.value) : []);
  const show = () => {
    const instants = found();
    fold.hidden = instants.length < 2;
    put(utc, [input.value && (value() ? `${said.utc}: ${value()}` : said.gap)]);
  };
  const value = () => {
    const instants = found();
    return instants[instants.length > 1 ? Number(twice.value) : 0] || null;
  };
  if (begin) {
    input.value = localOf(begin).replace(' ', 'T');
    twice.value = String(Math.max(found().indexOf(begin), 0));
  }
  input.addEventListener('input', show);
  twice.addEventListener('input', show);
  show();
  return { label, node: made('div', { class: 'line' }, labelled(label, input), fold, utc), value };
}

function euroField(label, cents = '') {
  const turned = (text) => {
    const [whole, part = ''] = text.split('.');
    return String(BigInt(whole + part.padEnd(2, '0')));
  };
  return textField(label, 'euro', /^\d{1,7}(\.\d{1,2})?$/, cents && euro(BigInt(cents)), turned);
}

// The fields of a row of assignments, top-ups and withdrawn readings, with what stands in them.
const FIELDS = {
  assignment: ([meter, start, account]) => [textField(said.meter, 'meter', NAME, meter),
    timeField(said.start, 'start', start),
    textField(said.toNobody, 'account', /^[A-Za-z0-9_-]{0,32}$/, account)],
  topup: ([reference, account, cents, instant]) => [
    textField(said.reference, 'reference', /^[A-Za-z0-9.-]{1,32}$/, reference),
    textField(said.account, 'account', /^[A-Za-z0-9_-]{1,32}$/, account),
    euroField(said.euro, cents), timeField(said.instant, 'instant', instant)],
  reading: ([meter, register, instant, wh]) => [textField(said.meter, 'meter', NAME, meter),
    textField(said.register, 'register', /^[IE][012]$/, register),
    timeField(said.instant, 'instant', instant),
    textField(said.wh, 'wh', /^\d{1,11}$/, wh)],
};

// A form of one row: it shows the row before it sends it, and the server's answer behind it.
function rowForm(kind, title, fields, front, refresh) {
  const preview = made('div', { 'aria-live': 'polite' });
  const show = (event) => {
    event.preventDefault();
    const faulty = fields.find((it) => it.value() === null);
    if (faulty) return put(preview, [wrong(fill(said.bad, faulty.label))]);
    const row = [...front, ...fields.map((it) => it.value())].join(',');
    const send = button(said.send, async () => {
      send.disabled = true;
      try {
        const told = await sendBody(`/${kind}`, `${HEADERS[kind]}\n${row}\n`);
        put(preview, [made('p', {}, row),
          made('p', { class: told.status === 200 ? 'taken' : 'refused' }, told.text)]);
        if (told.status === 200) refresh();
      } catch (fault) {
        put(preview, [wrong(fault.message)]);
      }
    });
    return put(preview, [made('p', {}, said.row), made('pre', {}, `${HEADERS[kind]}\n${row}`),
      send]);
  };
  return made('form', { 'data-kind': kind, submit: show, input: () => put(preview, []) },
    ...fields.map((it) => it.node), made('button', {}, said.showRow), preview);
}

// The form of a withdrawal, whose fields are those of the record's kind.
function withdrawalForm(begin, refresh) {
  const [first, ...given] = begin ? begin.split(',') : ['reading'];
  const kind = select(said.kinds, { name: 'kind' });
  const place = made('div', {});
  const show = (values) => put(place, [rowForm('withdrawals', said.withdrawOne,
    FIELDS[kind.value](values), [kind.value], refresh)]);
  if (Object.hasOwn(said.kinds, first)) kind.value = first;
  kind.addEventListener('change', () => show([]));
  show(given);
  return [labelled(said.kind, kind), place];
}

function folded(title, open, ...children) {
  return made('details', open ? { open: '' } : {}, made('summary', {}, title), ...children);
}

// The place where files are sent: it goes on, and keeps its answers, while other views are shown.
const sending = { area: null, refresh: null };

async function officeView(withdrawal) {
  const accounts = made('div', { id: 'accounts' });
  const refresh = () => put(accounts, [later(accountsTable)]);
  refresh();
  sending.refresh = refresh;
  sending.area = sending.area || uploadArea(() => sending.refresh());
  const form = (kind, one, title) => folded(title, false,
    rowForm(kind, title, FIELDS[one]([]), [], refresh));
  const withdrawing = folded(said.withdrawOne, Boolean(withdrawal),
    ...withdrawalForm(withdrawal, refresh));
  withdrawing.id = 'withdrawing';
  return {
    title: said.office,
    content: [section(said.accounts, accounts),
      section(said.tables, ...tablesOnDemand(), meterForm()),
      sending.area,
      made('section', {}, form('topups', 'topup', said.topUp),
        form('assignments', 'assignment', said.assign), withdrawing)],
    focus: withdrawal ? withdrawing.querySelector('summary') : null,
  };
}

// ---- A meter's readings

async function meterView(meter, filter) {
  const readings = csvOf(await ask(`/export/readings/${meter}`));
  const title = fill(said.readings, meter);
  return {
    title,
    content: [searched(title,
      [said.register, said.instant, said.utc, `#${said.kwh}`, said.state, said.way], readings, {
        words: (it) => `${it.register} ${it.instant} ${localOf(it.instant)} `
          + `${said.states[it.counted]}`,
        row: (it) => [it.register, ...times(it.instant), kwh(it.wh), said.states[it.counted],
          it.counted === 'w' ? ''
            : withdrawLink('reading', meter, it.register, it.instant, it.wh)],
        begin: filter,
      })],
  };
}

// ---- An account's month

// The sum of one field over rows that are of a band and a direction.
function sum(rows, field, band, direction) {
  return rows.filter((it) => it.band === band && it.direction === direction)
    .reduce((all, it) => all + it[field], 0n);
}

function bandsOf(bill) {
  return [...new Set(bill.periods.flatMap((it) => it.bands.map((row) => row.band)))];
}

// What doesn't agree: sums of rows with the bill's energies, and the printed way to the balance.
function disagreements(bill, rows, name) {
  const lines = bill.periods.flatMap((it) => it.bands);
  const bands = [...new Set([...bandsOf(bill), ...rows.map((it) => it.band)])];
  const told = [];
  for (const band of bands) {
    for (const direction of ['import', 'export']) {
      const stated = lines.filter((it) => it.band === band)
        .reduce((all, it) => all + BigInt(it[`${direction}Wh`]), 0n);
      const added = sum(rows, 'wh', band, direction);
      if (stated !== added) {
        told.push(fill(said.wrongEnergy, band, said[direction], stated, name, added));
      }
    }
  }
  for (const direction of ['import', 'export']) {
    const added = bands.reduce((all, it) => all + sum(rows, 'nano', it, direction), 0n);
    if (euroOfNano(added) !== bill[direction]) {
      told.push(fill(said.wrongCost, said[direction], bill[direction], name, euroOfNano(added)));
    }
  }
  const end = centsOf(bill.begin) + centsOf(bill['topped up']) - centsOf(bill.import)
    + centsOf(bill.export) + centsOf(bill.rounding);
  if (end !== centsOf(bill.end)) told.push(said.wrongBalance);
  return told;
}

function alarm(told) {
  return told.length ? wrong(fill(said.wrongSum, told.join('; '))) : null;
}

function billTable(bill) {
  const line = (text, amount) => [text, '', '', '', '', amount];
  const several = bill.periods.length > 1;
  const energy = (field) => kwh(bill.periods.flatMap((it) => it.bands)
    .reduce((all, it) => all + BigInt(it[field]), 0n));
  const bands = bill.periods.flatMap((period) => [
    ...(several ? [[fill(said.period, localOf(period.start), period.start)]] : []),
    ...period.bands.map((it) => [`${said.band} ${it.band}`, kwh(it.importWh), it.importEur,
      kwh(it.exportWh), it.exportEur, '']),
  ]);
  return table(said.bill, [said.what, `#${said.importKwh}`, `#${said.importEur}`,
    `#${said.exportKwh}`, `#${said.exportEur}`, '#EUR'], [
    line(said.begins, bill.begin), line(said.toppedUp, bill['topped up']), ...bands,
    [said.together, energy('importWh'), bill.import, energy('exportWh'), bill.export, ''],
    ...(bill.rounding === '0.00' ? [] : [line(said.rounding, bill.rounding)]),
    line(said.ends, bill.end)]);
}

// A line for each meter and instant that registers of it are read up to.
function readLines(bill) {
  const lines = new Map();
  for (const { meter, register, instant } of bill.readUpTo) {
    const key = `${meter} ${instant}`;
    const line = lines.get(key) || { meter, registers: [], instant };
    line.registers.push(register);
    lines.set(key, line);
  }
  return [...lines.values()].map(({ meter, registers, instant }) => {
    const name = `${meter} (${registers.join(', ')})`;
    return made('p', { class: 'hint' }, instant
      ? fill(said.readUpTo, name, localOf(instant), instant) : fill(said.neverRead, name));
  });
}

// Where a local month begins, in UTC: the first with the first instant; behind the last of them
// no instant comes.
function monthBegin(month) {
  if (month === '2000-01' || month === '2100-01') return `${month}-01T00:00:00Z`;
  return instantsOf(`${month}-01T00:00:00`)[0];
}

// A step of the scale of which four to eight reach so high.
function stepOf(most) {
  let step = 1;
  for (let at = 0; step * 8 < most; at += 1) step *= at % 3 === 1 ? 2.5 : 2;
  return step;
}

// Days as bars: import above the line, export below, the bands one on the other. SVG 2.
function chart(days, names, bands) {
  const width = 720, left = 64, high = 220, top = 12;
  const wh = (day, band, way) => Number(sum(days.get(day), 'wh', band, way));
  const total = (day, way) => bands.reduce((all, it) => all + wh(day, it, way), 0);
  const most = (way) => Math.max(0, ...names.map((it) => total(it, way)));
  const step = stepOf(Math.max(most('import') + most('export'), 1));
  const up = Math.ceil(most('import') / step), down = Math.ceil(most('export') / step);
  const unit = high / (Math.max(up + down, 1) * step);
  const zero = top + up * step * unit, wide = (width - left) / names.length;
  const bars = names.flatMap((day, at) => ['import', 'export'].flatMap((way) => {
    let reached = 0;
    return bands.map((band, number) => {
      const energy = wh(day, band, way), height = energy * unit;
      const y = way === 'import' ? zero - reached - height : zero + reached;
      reached += height;
      return drawn('rect', {
        x: left + at * wide + wide * 0.12, y, width: wide * 0.76, height,
        class: `band${number} ${way}`,
        'data-day': day, 'data-band': band, 'data-direction': way, 'data-wh': energy,
      }, drawn('title', {}, `${day} ${band} ${said[way]} ${kwh(energy)} kWh`));
    });
  }));
  const ticks = Array.from({ length: up + down + 1 }, (_, at) => (up - at) * step);
  const scale = ticks.flatMap((it) => [
    drawn('line', { x1: left, x2: width, y1: zero - it * unit, y2: zero - it * unit,
      class: it ? 'grid' : 'zero' }),
    drawn('text', { x: left - 6, y: zero - it * unit + 4, class: 'left' },
      `${(Math.abs(it) / 1000).toFixed(3)}`),
  ]);
  const dates = names.map((day, at) => drawn('text', {
    x: left + (at + 0.5) * wide, y: top + high + 18, class: 'middle',
  }, String(Number(day.slice(8)))));
  return made('figure', {},
    drawn('svg', { viewBox: `0 0 ${width} ${top + high + 24}`, role: 'img',
      'aria-label': said.chart }, scale, bars, dates),
    made('figcaption', {}, said.chart, ' (kWh): ', bands.flatMap((band, number) => [
      made('span', { class: `key band${number}`, 'aria-hidden': 'true' }), `${band} `])));
}

function daysTable(days, names, bands) {
  const heads = (way) => [...bands.map((it) => `#${fill(said[way], it)}`)];
  const cost = (rows, way) => euroOfNano(bands.reduce((all, it) => all
    + sum(rows, 'nano', it, way), 0n));
  return table(said.days, [said.day, ...heads('bandImport'), `#${said.importEur}`,
    ...heads('bandExport'), `#${said.exportEur}`], names.map((day) => {
    const rows = days.get(day);
    const energies = (way) => bands.map((it) => kwh(sum(rows, 'wh', it, way)));
    return [day, ...energies('import'), cost(rows, 'import'), ...energies('export'),
      cost(rows, 'export')];
  }));
}

// The bill of a month and its days, of the same records: the bill counts them. Where the two don't
// agree, and more records are held by now, some came between them, and both are asked for again.
async function billAndDays(path) {
  for (let tries = 0; ; tries += 1) {
    const bill = billOf(await ask(path));
    const rows = daysOf(await ask(`${path}/days`));
    const told = disagreements(bill, rows, said.theDays);
    if (!told.length || tries === TRIES || !await changed(path, bill)) return { bill, rows, told };
  }
}

// Whether other records are held by now than those of a bill.
async function changed(path, bill) {
  return billOf(await ask(path)).records !== bill.records;
}

// What of the pieces and top-ups doesn't agree with the bill and its days.
function whyDisagreements(bill, days, { pieces, topups }) {
  const told = disagreements(bill, pieces, said.thePieces);
  for (const band of bandsOf(bill)) {
    for (const direction of ['import', 'export']) {
      const [one, other] = [days, pieces].map((it) => sum(it, 'nano', band, direction));
      if (one !== other) told.push(fill(said.wrongNano, band, said[direction], one, other));
    }
  }
  const topped = euro(topups.reduce((all, it) => all + it.cents, 0n));
  if (topped !== bill['topped up']) told.push(fill(said.wrongTopups, bill['topped up'], topped));
  return told;
}

// Each row that led to the bill, held against the days. Where records came since the bill was
// shown, the month is shown again.
async function whyTables(path, { bill, rows }, again) {
  const why = whyOf(await ask(`${path}/why`));
  const { pieces, topups } = why;
  const told = whyDisagreements(bill, rows, why);
  if (told.length && await changed(path, bill)) return again();
  return [alarm(told), made('p', { class: 'hint' }, said.whyHint),
    searched(said.whyTitle, [said.meter, said.register, said.from, said.utc, `#${said.low}`,
      said.until, said.utc, `#${said.high}`, said.begin, said.utc, said.end, said.utc, said.band,
      `#${said.kwh}`, `#${said.cost}`], pieces, {
      words: (it) => Object.values(it).join(' '),
      row: (it) => [pairLink(it), it.register,
        ...times(it.from), kwh(it.low), ...times(it.to), kwh(it.high), ...times(it.begin),
        ...times(it.end), it.band, kwh(it.wh), euroOfNano(it.nano)],
    }),
    topups.length ? table(said.topups, [said.reference, `#${said.amount}`, said.instant, said.utc],
      topups.map((it) => [it.reference, euro(it.cents), ...times(it.instant)])) : null];
}

// How wide a table is printed, in letters' heights: by the longest cell of each column.
function widthOf({ tHead, tBodies }) {
  const rows = [...tBodies[0].rows].filter((it) => it.cells.length > 1);
  return [...tHead.rows[0].cells].reduce((all, _, at) => all + 0.6
    + 0.64 * Math.max(0, ...rows.map((it) => it.cells[at].textContent.length)), 0);
}

// The height of letters, in points, at which a view is printed on one page of A4. Its heading and
// chart leave 570 points for lines; a line takes 1.3 letters and its border.
function printSize(main) {
  const lines = main.querySelectorAll('tr, caption, figcaption, p').length + 2;
  const width = Math.max(...[...main.querySelectorAll('table')].map(widthOf));
  return Math.max(4.5, Math.min(8, (570 / lines - 0.75) / 1.3, 527 / width));
}

// Days in their order, each with its rows.
function byDay(rows) {
  const days = new Map();
  for (const row of rows) days.set(row.day, [...(days.get(row.day) || []), row]);
  return days;
}

function monthTurns(account, month) {
  const turn = (step, text) => {
    const other = monthBeside(month, step);
    return /^20/.test(other) ? link(['account', account, other], text, other) : null;
  };
  return made('nav', { class: 'line', 'aria-label': said.month }, turn(-1, said.earlier),
    turn(1, said.later), button(said.print, () => window.print()));
}

async function monthView(account, month, open) {
  if (!month) return newestMonth(account);
  const path = `/accounts/${account}/${month}`;
  const shown = await billAndDays(path);
  const { bill, rows, told } = shown;
  const days = byDay(rows), names = [...days.keys()], bands = bandsOf(bill);
  const [from, to] = [month, monthBeside(month, 1)].map(monthBegin);
  const why = made('div', {});
  const folder = folded(said.whyTitle, open === 'why', why);
  folder.id = 'why';
  folder.addEventListener('toggle', () => {
    if (folder.open) put(why, [later(() => whyTables(path, shown, () => showWhy(account, month)))]);
  });
  return {
    title: fill(said.monthOf, account, monthName(month), month.slice(0, 4)),
    onePage: true,
    content: [monthTurns(account, month),
      made('p', { class: 'hint' }, fill(said.span, localOf(from), localOf(to), from, to)),
      alarm(told), billTable(bill),
      ...readLines(bill), made('p', { class: 'hint' }, fill(said.held, bill.records)),
      chart(days, names, bands), daysTable(days, names, bands), folder],
  };
}

// Shows a month anew, with why folded open.
function showWhy(account, month) {
  const address = `#/account/${account}/${month}/why`;
  if (window.location.hash === address) show();
  else window.location.replace(address);
  return null;
}

// The month of the latest instant of some, or one where there are none.
function latestMonth(instants, otherwise) {
  const latest = instants.filter(Boolean).sort().pop();
  return latest ? localOf(latest).slice(0, 7) : otherwise;
}

// When an account's last meters were taken by others: of each the start behind its own last one.
function endsOf(account, assignments) {
  const starts = [...assignments].sort((a, b) => (a.start < b.start ? -1 : 1));
  return [...new Set(starts.map((it) => it.meter))].map((meter) => {
    const own = starts.filter((it) => it.meter === meter);
    const last = own.map((it) => it.account).lastIndexOf(account);
    return last < 0 || last + 1 === own.length ? null : own[last + 1].start;
  });
}

// Where no month is asked for: the newest one up to now in which a meter of the account was read.
// It is only where one begins to look, so what is in dispute or withdrawn doesn't matter here.
async function newestMonth(account) {
  const read = async (month) => billOf(await ask(`/accounts/${account}/${month}`)).readUpTo
    .map((it) => it.instant);
  const now = latestMonth([instantOf(Math.floor(Date.now() / 1000))]);
  let instants = await read(now);
  if (!instants.some(Boolean)) {
    const ends = endsOf(account, csvOf(await ask('/export/assignments')));
    instants = await read(latestMonth(ends.filter((it) => it && it < now), now));
  }
  window.location.replace(`#/account/${account}/${latestMonth(instants, now)}`);
  return null;
}

// ---- What is shown: the part of the address behind the #

const VIEWS = {
  '': () => officeView(null),
  withdraw: (row) => officeView(row),
  meter: meterView,
  account: monthView,
};
let asking = 0;

// Shows the view that the address names. Where another was asked for meanwhile, that one stays.
async function show() {
  const mine = ++asking;
  const [, name = '', ...words] = window.location.hash.split('/');
  const main = document.getElementById('main');
  const heading = made('h1', { tabindex: '-1' }, said.loading);
  put(main, [heading]);
  main.style.removeProperty('--print');
  let view;
  try {
    const known = Object.hasOwn(VIEWS, name) ? name : '';
    view = await VIEWS[known](...words.map(decodeURIComponent));
  } catch (fault) {
    view = { title: said.title, content: [wrong(fault.message)] };
  }
  if (mine !== asking || !view) return;
  put(heading, [view.title]);
  document.title = `${view.title} - ${said.title}`;
  put(main, [heading, ...view.content]);
  if (view.onePage) main.style.setProperty('--print', `${printSize(main)}pt`);
  (view.focus || heading).focus();
}

function begin() {
  document.documentElement.lang = language;
  const skip = button(said.skip, () => document.querySelector('h1').focus());
  skip.className = 'skip';
  put(document.getElementById('top'), [skip, made('nav', { 'aria-label': said.title },
    made('a', { href: '#/' }, `${said.title}: ${said.office}`))]);
  for (const name of ['dragover', 'drop']) {
    window.addEventListener(name, (event) => event.preventDefault());
  }
  window.addEventListener('hashchange', show);
  show();
}

begin();
