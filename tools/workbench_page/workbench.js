// The page of the workbench: it sends the card's text and the log to the server whenever one of them changes, and shows what is told.
'use strict';

const at = id => document.getElementById(id);
const SVG = 'http://www.w3.org/2000/svg', MONOSPACE = 'ui-monospace, DejaVu Sans Mono, monospace';
let shown = {}, name = 0, saved = '';            // what is shown, the name whose stretches are shown, and the text as it was last saved
let changes = 0, asking = false, waiting = 0;    // how often something was changed, whether an answer is awaited, and the timer

function made(tag, attributes = {}, ...children) {
  const element = document.createElement(tag);
  for (const [key, value] of Object.entries(attributes)) {
    if (key.startsWith('on')) element.addEventListener(key.slice(2), value);
    else if (value !== null) element.setAttribute(key, value);
  }
  element.append(...children);
  return element;
}

function drawn(tag, attributes, ...children) {
  const element = document.createElementNS(SVG, tag);
  for (const [key, value] of Object.entries(attributes)) element.setAttribute(key, value);
  element.append(...children);
  return element;
}

const counted = (number, what) => `${number} ${what}${number === 1 ? '' : 's'}`;

// Asking. One request at a time: what is changed meanwhile is asked when the answer has come, and only an answer to the last change is shown.

const PAUSE = 120;    // milliseconds from a key to the request

function changed() {
  changes += 1;
  marked([], []);
  at('verdict').classList.add('pending');    // it is of what stood there before
  at('expect').disabled = true;
  clearTimeout(waiting);
  if (!asking) waiting = setTimeout(ask, PAUSE);
}

async function ask() {
  const asked = changes;
  asking = true;
  try {
    const told = await answered();
    if (asked === changes) show(told);
  } catch (error) {
    if (asked === changes) unanswered(error);
  }
  asking = false;
  if (asked !== changes) ask();
}

async function answered() {
  const body = JSON.stringify({ card: at('text').value, log: at('log').value });
  const answer = await fetch('/told', { method: 'POST', headers: { 'Content-Type': 'application/json' }, body });
  if (!answer.ok) throw new Error(await answer.text());
  return answer.json();
}

function unanswered(error) {
  const gone = error instanceof TypeError, reason = gone ? 'the workbench does not answer: is `tools/card serve` still running?' : error.message;
  unjudged(gone ? 'the workbench does not answer' : 'the workbench does not take this');
  at('told').replaceChildren(made('p', { class: 'bad' }, reason));
}

function show(told) {
  shown = told.fault ? { ...shown, fault: told.fault, checks: {}, expected: [] } : told;
  showCard();
  if (told.fault) {    // what is below stays as it was, and is dimmed
    unjudged("the card's text has a fault");
    return;
  }
  showVerdict();
  showExpected();
  setTimeout(() => {    // the verdict is seen before a large picture is drawn
    if (shown !== told) return;
    showReading();
    showTable();
    showNames();
    showStretches();
  });
}

function unjudged(reason) {
  document.body.classList.add('stale');
  at('verdict').classList.remove('pending');
  at('kept').textContent = '';
  at('verdict').replaceChildren(made('span', { class: 'chip refused' }, 'not judged'), made('span', {}, reason));
}

// The card

function marked(faulty, expected) {
  const lines = at('text').value.split('\n').length, gutter = [], bands = [];
  for (let line = 1; line <= lines; line++) {
    const kept = expected.find(each => each.line === line);
    gutter.push(made('div', { class: kept ? (kept.holds ? 'ok' : 'bad') : '' }, kept ? (kept.holds ? '✓' : '✕') : String(line)));
    bands.push(made('div', { class: faulty.includes(line) ? 'faulty' : kept && !kept.holds ? 'unmet' : '' }));
  }
  at('gutter').replaceChildren(...gutter);
  at('bands').replaceChildren(...bands);
  scrolled();
}

function scrolled() {
  for (const id of ['gutter', 'bands']) at(id).style.transform = `translateY(${-at('text').scrollTop}px)`;
}

function goTo(line) {
  const text = at('text'), lines = text.value.split('\n'), start = lines.slice(0, line - 1).join('\n').length + (line > 1 ? 1 : 0);
  text.focus();
  text.setSelectionRange(start, start + lines[line - 1].length);
  text.scrollTop = Math.max(0, (line - 6) * 20);
}

// A text in which each line of the card that it names can be gone to.
function withLines(text) {
  const link = part => made('button', { type: 'button', onclick: () => goTo(Number(part.slice('line '.length))) }, part);
  return text.split(/\b(line \d+)(?=:)/).map((part, number) => number % 2 ? link(part) : part);
}

function showCard() {
  const { fault, checks = {} } = shown;
  document.body.classList.toggle('stale', Boolean(fault));
  at('size').textContent = fault ? '' : shown.size;
  at('checks').replaceChildren(...Object.entries(checks).map(([judge, check]) =>
    made('li', { class: check.passed ? 'passed' : 'refused' }, `${check.passed ? '✓' : '✕'} ${judge}`)));
  const refused = Object.entries(checks).filter(([, check]) => !check.passed), taken = refused.length < 3;
  const lines = fault ? [made('p', { class: 'bad' }, ...withLines(fault.told))] : refused.flatMap(([judge, check]) =>
    check.told.map((line, later) => made('p', { class: later ? 'further' : taken ? '' : 'bad' }, ...withLines(later ? line : `${judge}: ${line}`))));
  if (!lines.length) lines.push(made('p', { class: 'quiet' }, 'every judge takes the card'));
  if (!fault) lines.push(...shown.warnings.map(line => made('p', {}, ...withLines(line))));
  at('told').replaceChildren(...lines);
  const first = refused.find(([judge]) => judge === 'one event');
  marked(fault ? [fault.line] : first ? first[1].lines : [], shown.expected || []);
}

// The log

function verdictOf(log) {
  const said = Object.entries(log.verdicts);
  return said.find(([, each]) => each.verdict !== 'refused') || said[0] || [null, null];
}

// The word of a verdict, what it says, and by which judge.
function verdictTold(judge, said) {
  const { log, names } = shown;
  if (!said) return ['refused', 'not judged', 'no judge takes the card', ''];
  if (said.verdict === 'refused') return ['refused', 'refused', said.reason, ''];
  const where = said.far < log.events.length ? `before ${log.events[said.far]}` : 'the end of the log';
  return [said.verdict, said.verdict, `the log of ${counted(log.events.length, 'event')} ${said.verdict === 'accepted' ? 'belongs' : 'does not belong'} to ${names[0]}`,
    judge === 'plain' ? 'by the plain judge' : `by ${judge}: ${counted(said.count, 'call')}, the farthest at place ${said.far}, ${where}`];
}

function showVerdict() {
  const [judge, said] = verdictOf(shown.log), [look, word, told, by] = verdictTold(judge, said), events = shown.log.events.join(' ');
  at('verdict').replaceChildren(made('span', { class: `chip ${look}` }, word), made('span', {}, told), made('span', { class: 'quiet' }, by));
  at('verdict').classList.remove('pending');
  at('expect').disabled = look === 'refused' || shown.expected.some(each => each.events.join(' ') === events);
}

const heads = columns => made('thead', {}, made('tr', {}, ...columns.map(each => made('th', { scope: 'col' }, each))));

function showReading() {
  const { log } = shown;
  const svg = log.picture && new DOMParser().parseFromString(log.picture, 'image/svg+xml').documentElement;
  at('picture').replaceChildren(...(svg ? [document.importNode(svg, true)] : []));
  at('calls-box').hidden = at('legend').hidden = !log.calls.length;
  const rows = log.calls.map(([called, place, end, trusted]) =>
    [called, String(place), end === null ? 'failed' : String(end), trusted ? 'the stretch belongs to the name' : '']);
  at('calls').replaceChildren(made('table', {}, heads(['name', 'place', 'end', '']),
    made('tbody', {}, ...rows.map(row => made('tr', {}, ...row.map(each => made('td', {}, each)))))));
}

const written = events => events.join(events.every(event => event.replace('<', '').length === 1) ? '' : ' ') || 'empty';

// What is expected

const NONE = 'A line of the card such as “accept aabb” or “reject aab” says what is to become of a log. The button writes one for the log above.';

function showExpected() {
  const { expected } = shown, unmet = expected.filter(each => !each.holds).length, count = counted(expected.length, 'log');
  at('kept').textContent = !expected.length ? '' : unmet ? `${unmet} of ${count} not as expected` : `all ${count} as expected`;
  at('kept').className = unmet ? 'bad' : 'quiet';
  at('expected').replaceChildren(...expected.map(each => made('li', {},
    made('span', { class: each.holds ? 'ok' : 'bad', role: 'img', 'aria-label': each.holds ? 'as expected' : 'not as expected' }, each.holds ? '✓' : '✕'),
    made('span', {}, each.verdict),
    made('button', { type: 'button', class: 'try', onclick: () => tryLog(each.log) }, each.log || 'empty'),
    ...(each.remark ? [made('span', { class: 'note quiet' }, each.remark)] : []),
    ...each.differing.map(line => made('span', { class: 'why' }, line)))));
  if (!expected.length) at('expected').replaceChildren(made('li', { class: 'none quiet' }, NONE));
}

function tryLog(log) {
  at('log').value = log;
  at('log').focus();
  changed();
}

function expect() {
  const [, said] = verdictOf(shown.log), text = at('text'), end = text.value.length;
  const line = `${text.value.endsWith('\n') ? '' : '\n'}${said.verdict.slice(0, -2)} ${written(shown.log.events)}\n`;
  text.focus();
  text.setSelectionRange(end, end);
  if (!document.execCommand('insertText', false, line)) {    // so that it can be undone
    text.setRangeText(line, end, end, 'end');
    changed();
  }
  text.scrollTop = text.scrollHeight;
}

// The table

// An entry with the rules that claim it, each of which can be gone to.
function entry(claims, head, column) {
  const { rules } = shown, title = claims.map(rule => rules[rule].text).join('\n') || `no rule of ${head}`;
  const link = rule => made('button', { type: 'button', class: 'rule', title: rules[rule].text, 'aria-label': `rule ${rule} of ${head}, before ${column}`,
    onclick: () => goTo(rules[rule].line) }, String(rule));
  return made('td', { class: ['gap', 'one'][claims.length] || 'overlap', title },
    ...(claims.length ? claims.flatMap((rule, later) => [later ? ' ' : '', link(rule)]) : ['–']));
}

function showTable() {
  const { table, names, letters } = shown, columns = [...letters, 'end'];
  if (!table.length) {
    at('table').replaceChildren(made('p', { class: 'quiet' }, 'a card that is refused before its table is made has none'));
    return;
  }
  const row = (entries, head) => made('tr', {}, made('th', { scope: 'row' }, head), ...entries.map((claims, column) => entry(claims, head, columns[column])));
  at('table').replaceChildren(made('table', {}, heads(['', ...columns]), made('tbody', {}, ...table.map((entries, number) => row(entries, names[number])))));
}

// The stretches

function showNames() {
  const { names } = shown;
  name = Math.min(name, names.length - 1);
  const choose = number => () => { name = number; showStretches(); };
  const choice = number => made('input', { type: 'radio', name: 'name', value: number, checked: number === name ? '' : null, onchange: choose(number) });
  at('names').replaceChildren(at('names').firstElementChild, ...names.map((each, number) => made('label', {}, choice(number), ' ' + each)));
}

const belongs = (word, number) => word >>> number & 1;

// The cell of a stretch, a square on its corner over the middle of the stretch, as high as the stretch is long.
function cell([start, end, word], size) {
  const { names, log: { events } } = shown, half = size / 2, whole = start === 0 && end === events.length;
  const x = size + (start + end) / 2 * size, y = half + 4 + (events.length - (end - start)) * half;
  const holders = names.filter((_, number) => belongs(word, number)).join(', ') || 'no name';
  return drawn('path', { d: `M${x} ${y - half + 1}l${half - 1} ${half - 1}l${1 - half} ${half - 1}l${1 - half} ${1 - half}z`,
    fill: belongs(word, name) ? '#2c8a57' : word ? '#e2ecdf' : '#f6f3ec', stroke: whole ? '#1d1f23' : '#d4cfc3', 'stroke-width': whole ? 2 : 1 },
  drawn('title', {}, `${start} to ${end} ${events.slice(start, end).join(' ') || '(empty)'}: ${holders}`));
}

function showStretches() {
  const { log, names } = shown, { stretches, events } = log;
  at('names').hidden = !stretches;
  if (!stretches) {
    at('stretches').replaceChildren();
    at('belong').textContent = 'the plain judge does not take this card or this log';
    return;
  }
  const size = Math.max(14, Math.min(36, Math.floor((at('stretches').clientWidth || 700) / (events.length + 2))));
  const wide = Math.max((events.length + 2) * size, 200), high = (events.length + 2) * size / 2 + 30;
  const letter = (event, place) => drawn('text', { x: size + (place + .5) * size, y: high - 12, 'text-anchor': 'middle', 'font-weight': 'bold' }, event);
  at('stretches').replaceChildren(drawn('svg', { width: wide, height: high, role: 'img', 'aria-label': `stretches of ${names[name]}`, 'font-family': MONOSPACE,
    'font-size': Math.min(13, size * .62) }, ...stretches.map(each => cell(each, size)), ...events.map(letter)));
  const found = stretches.filter(([, , word]) => belongs(word, name)).map(([start, end]) => `${start}–${end}`);
  at('belong').textContent = `${names[name]}: ${found.join(' ') || 'no stretch'}`;
}

// Cards to work on

function take(text, called) {
  at('text').value = saved = text.replace(/\r\n?/g, '\n');
  at('text').scrollTop = 0;
  document.title = `${called} – card workbench`;
  const expected = /^\s*accept\b([^:#\n]*)/m.exec(text);    // a log to begin with
  at('log').value = expected && expected[1].trim() !== 'empty' ? expected[1].trim() : '';
  changed();
}

const leaving = () => at('text').value === saved || confirm('Leave the card as it is now? What was changed is not saved.');

function save() {
  const called = document.title.split(' – ')[0].split('/').pop() || 'new.card';
  const link = made('a', { href: URL.createObjectURL(new Blob([at('text').value], { type: 'text/plain' })), download: called });
  link.click();
  setTimeout(() => URL.revokeObjectURL(link.href), 1000);
  saved = at('text').value;
}

async function open() {
  const [file] = at('file').files;
  if (file && leaving()) take(await file.text(), file.name);
  at('file').value = '';
}

async function start() {
  const cards = await (await fetch('/cards')).json(), choice = at('cards');
  let chosen = 0;
  choice.append(...cards.map((card, number) => made('option', { value: number }, card.name)));
  choice.addEventListener('change', () => {
    if (!leaving()) choice.value = chosen;
    else take(cards[chosen = Number(choice.value)].text, cards[chosen].name);
  });
  at('text').addEventListener('input', changed);
  at('text').addEventListener('scroll', scrolled);
  at('log').addEventListener('input', changed);
  at('expect').addEventListener('click', expect);
  at('open').addEventListener('click', () => at('file').click());
  at('file').addEventListener('change', open);
  at('save').addEventListener('click', save);
  addEventListener('beforeunload', event => { if (at('text').value !== saved) event.preventDefault(); });
  if (cards.length) take(cards[0].text, cards[0].name);
}

start();
