'use strict';
// Reads /data.json twice a second and draws it. Nothing is kept from one reading to the next but what is chosen and pointed at.
const PERIOD = 500, CELLS = 200, LABEL = 118, CELL = 4, ROW = 9;
const COLORS = ['#2f7ed8', '#d9541e', '#2a9d55', '#9b51c9', '#c79100', '#00a0a8', '#d1377f', '#7a7f2a'];
const STATES = { w: 'whole', g: 'gaps', a: 'absent', '-': 'notdue' };
const SAID = { w: 'whole', g: 'with gaps', a: 'absent', '-': 'nothing due' };
const ERRORS = ['', 'PMU error, nothing is said of the data', 'test mode, or tags inserted for absent data', 'PMU error, values not to be used'];
const QUALITY = ['', 'time within 100 ns', 'time within 1 µs', 'time within 10 µs', 'time within 100 µs', 'time within 1 ms', 'time within 10 ms', 'time off by more than 10 ms, or unknown'];
const UNLOCKED = ['', 'unlocked for 10 s', 'unlocked for 100 s', 'unlocked for 1000 s'];
const REASONS = ['manual', 'magnitude low', 'magnitude high', 'phase angle', 'frequency', 'rate of change', 'reserved', 'digital'];
// On a narrow screen the matrix shows the last 8 seconds alone.
const first = () => innerWidth < 700 ? 120 : 0;
const at = id => document.getElementById(id);
const cursor = { row: 0, cell: -1 };
let data = null, reference = '';

// An element of HTML, or of SVG, with attributes and children.
function make(tag, attributes, ...children) {
  const svg = ['svg', 'g', 'rect', 'text', 'line', 'circle', 'polyline', 'path', 'title'].includes(tag);
  const made = svg ? document.createElementNS('http://www.w3.org/2000/svg', tag) : document.createElement(tag);
  for (const [name, value] of Object.entries(attributes || {})) made.setAttribute(name, value);
  made.append(...children);
  return made;
}

// Puts children in place of those that an element has, where they differ.
function put(id, ...children) {
  const next = make('div', {}, ...children);
  if (at(id).innerHTML !== next.innerHTML) at(id).replaceChildren(...next.childNodes);
}

const utc = ms => new Date(ms).toISOString().slice(11, 23) + ' UTC';
const whole = n => n.toLocaleString('en');
const second = ms => new Date(ms).toISOString().slice(11, 19) + ' UTC';

// What STAT says, in words (IEEE C37.118.2-2011, table 7).
function statWords(stat) {
  const said = [ERRORS[stat >> 14 & 3], stat >> 13 & 1 ? 'not in sync with UTC' : '', stat >> 12 & 1 ? 'sorted by arrival' : '',
    stat >> 11 & 1 ? 'trigger: ' + (REASONS[stat & 15] || 'of the user') : '', stat >> 10 & 1 ? 'configuration about to change' : '',
    stat >> 9 & 1 ? 'data modified' : '', QUALITY[stat >> 6 & 7], UNLOCKED[stat >> 4 & 3]].filter(text => text);
  return said.length ? said.join(', ') : 'good data, in sync';
}

const age = ms => Math.floor(ms / 1000) + ' s';

// The state of a PMU's newest data, and what is to be said of it: that there is none, how old it is, or that STAT warns of its values.
function doubt(pmu) {
  if (pmu.cameMs === null) return { state: 'none', said: 'no data yet' };
  const error = ERRORS[pmu.stat >> 14 & 3];
  if (pmu.old) return { state: error ? 'unusable' : 'old', said: `${age(pmu.ageMs)} old${error ? ', ' + error : ''}` };
  return { state: error ? 'unusable' : 'good', said: error };
}

function drawAgreement() {
  const { instants, equal, different } = data.agreement;
  const line = at('agreement');
  Object.assign(line.dataset, { instants, equal, different, state: different ? 'different' : instants ? 'equal' : 'none' });
  line.textContent = !instants ? 'No instant that both nodes published yet'
    : different ? `In ${whole(different)} of ${whole(instants)} instants that both nodes published, blocks present in both differ`
      : `In all ${whole(instants)} instants that both nodes published, the blocks present in both were equal`;
}

// How far behind their instants the last frames of a stream came: in words, and as a bar of one length for all boxes.
function drawDelays({ behindMedianMs: median, behindP99Ms: most }) {
  const strip = make('p', { class: 'delays', 'data-median': median ?? '', 'data-most': most ?? '' });
  if (median === null || most === null) {
    strip.append('behind the instant: –');
    return strip;
  }
  const longest = Math.max(100, ...data.streams.map(stream => stream.behindP99Ms ?? 0));
  const svg = make('svg', { 'aria-hidden': 'true', viewBox: '0 0 200 4', preserveAspectRatio: 'none' },
    make('rect', { class: 'track', width: 200, height: 4 }), make('rect', { class: 'most', width: 200 * most / longest, height: 4 }),
    make('rect', { class: 'median', width: 200 * median / longest, height: 4 }));
  strip.append(`behind the instant: median ${median} ms, 99 of 100 within ${most} ms`, svg);
  return strip;
}

// How late a concentrator published in the last minute, by its own counters, which tell bounds; nothing where they cannot be read.
function drawPublished({ publishedMedianMs: half, publishedP99Ms: most, afterDataMedianMs: halfOfData, afterDataP99Ms: mostOfData }) {
  if ([half, most, halfOfData, mostOfData].includes(null)) return [];
  const within = ms => ms === 65535 ? 'over 1 s' : `≤ ${ms} ms`;
  return [make('p', { class: 'published', 'data-median': half, 'data-most': most, 'data-median-of-data': halfOfData, 'data-most-of-data': mostOfData },
    `published: ${within(half)}, 99 of 100 ${within(most)}; after data: ${within(halfOfData)}, ${within(mostOfData)}`)];
}

// Which PMUs were absent of the merger's stream in the last second.
function drawAbsent() {
  const absent = data.pmus.filter(pmu => !came(pmu, 'M'));
  return make('p', { class: 'absences', 'data-absent': absent.map(pmu => pmu.source).join(' ') },
    absent.length ? `absent: ${absent.length} of ${data.pmus.length}, ${absent.map(pmu => pmu.source + ' ' + pmu.name).join(', ')}` : `absent: none of ${data.pmus.length}`);
}

// Whether a stream had data of a PMU in the last second.
const came = (pmu, name) => pmu.presence.some(row => row.stream === name && /[wg]/.test(row.cells.slice(-10)));

// Which node had the data that the merger shows: of how many PMUs both had it in the last second, and of how many one of them alone. Where both had
// it the merger sends the blocks of the node that its settings name first.
function drawShares() {
  const shown = data.pmus.filter(pmu => came(pmu, 'M'));
  const count = (a, b) => shown.filter(pmu => came(pmu, 'A') === a && came(pmu, 'B') === b).length;
  const [both, first, second] = [count(true, true), count(true, false), count(false, true)];
  return make('p', { class: 'shares', 'data-both': both, 'data-first': first, 'data-second': second },
    `blocks: ${both} from both nodes, ${first} from A alone, ${second} from B alone`);
}

// How long the concentrator of a stream waits for data that is missing, by its settings.
function drawWait({ wait, waitKind }) {
  const some = (count, what) => `${count} ${what}${count === 1 ? '' : 's'}`;
  return make('p', { class: 'wait', 'data-wait': wait, 'data-kind': waitKind },
    waitKind === 'Absolute' ? `waits: ${some(wait, 'instant')} behind the instant` : `waits: ${some(wait, 'tick')} behind the first data`);
}

// The box of a node or of the merger.
function drawBox(stream) {
  const box = at('box-' + stream.name);
  const seen = stream.frames > 0;
  box.dataset.state = stream.alive ? 'alive' : 'dead';
  const rows = [[stream.alive ? 'since' : seen ? 'last heard' : 'waiting since', second(stream.sinceMs) + (seen && !stream.alive ? `, ${age(stream.ageMs)} old` : '')], ['rate', stream.framesASecond + ' frames/s'],
    ['start', seen ? stream.start : '–'], ['last instant', stream.lastMs === null ? '–' : utc(stream.lastMs)],
    ['change', seen ? stream.change : '–'], ['behind', stream.behindMs === null ? '–' : stream.behindMs + ' ms']];
  put('box-' + stream.name,
    make('h2', {}, make('span', {}, (stream.name === 'M' ? 'Merger M ' : 'Node ' + stream.name + ' '), make('small', {}, stream.address)),
      make('span', { class: 'state' }, stream.alive ? '● alive' : seen ? '✕ not alive' : '✕ not seen')),
    make('dl', {}, ...rows.flatMap(([name, value]) => [make('dt', {}, name), make('dd', { 'data-of': name }, String(value))])),
    drawDelays(stream), ...drawPublished(stream), ...(stream.name === 'M' ? [drawWait(stream), drawShares(), drawAbsent()] : []),
    ...(stream.connected ? [] : [make('p', { class: 'keys' }, 'no connection, tried again each second')]));
}

// Whether the PMU's newest whole second has its data.
const isLate = pmu => !pmu.presence.some(row => /[wg]/.test(row.cells.slice(-10)));

function drawPair() {
  data.streams.forEach(drawBox);
  const merger = data.streams[2];
  put('pmus', ...data.pmus.map(pmu => make('li', { class: isLate(pmu) ? 'late' : '', 'data-pmu': pmu.source, 'data-state': isLate(pmu) ? 'away' : 'here' },
    `${isLate(pmu) ? '✕' : '●'} ${pmu.source} ${pmu.name}`, make('small', {}, doubt(pmu).said))));
  at('out').dataset.state = merger.alive ? 'alive' : 'dead';
  at('rate').textContent = merger.framesASecond + ' frames/s';
  at('outstate').textContent = merger.alive ? 'goes on' : 'stands still';
  at('clock').textContent = utc(data.nowMs);
  at('clock').dateTime = new Date(data.nowMs).toISOString();
}

const rows = () => data.pmus.flatMap(pmu => pmu.presence.map(row => ({ pmu, row })));

// STAT of a cell: the last one that was told before it.
function statAt(row, cell) {
  let stat = 0;
  for (const [from, value] of row.stats) if (from <= cell) stat = value;
  return stat;
}

// The rows of the matrix; cells that are the same side by side are one rectangle.
function drawMatrix() {
  const svg = at('matrix');
  const drawn = [];
  let y = 0;
  rows().forEach(({ pmu, row }, number) => {
    if (number % 3 === 0) {
      y += number ? 4 : 0;
      drawn.push(make('text', { x: 0, y: y + 8 }, `${pmu.source} ${pmu.name}`.slice(0, 18)));
    }
    const count = letter => row.cells.split(letter).length - 1;
    const line = make('g', { 'data-pmu': pmu.source, 'data-stream': row.stream, 'data-whole': count('w'), 'data-gaps': count('g'), 'data-absent': count('a'),
      'data-last': row.cells.slice(-10), 'aria-label': `${pmu.name} on ${row.stream}` });
    line.append(make('text', { class: 'soft', x: LABEL - 11, y: y + 8 }, row.stream));
    for (let from = first(); from < CELLS;) {
      let to = from + 1;
      while (to < CELLS && row.cells[to] === row.cells[from]) to++;
      line.append(make('rect', { class: STATES[row.cells[from]], x: LABEL + (from - first()) * CELL, y, width: (to - from) * CELL, height: ROW - 1.5 }));
      from = to;
    }
    row.stats.forEach(([told, stat], place) => {
      const from = Math.max(told, first()), to = place + 1 < row.stats.length ? row.stats[place + 1][0] : CELLS;
      if (stat && to > from) line.append(make('rect', { class: 'flag', x: LABEL + (from - first()) * CELL, y: y + ROW - 3, width: (to - from) * CELL, height: 1.5 }));
    });
    if (cursor.cell >= 0 && number === cursor.row) {
      line.append(make('rect', { class: 'cursor', x: LABEL + (cursor.cell - first()) * CELL - 1, y: y - 1, width: CELL + 2, height: ROW + 1 }));
    }
    drawn.push(line);
    y += ROW;
  });
  for (let s = first() / 10; s <= 20; s += first() ? 2 : 5) {
    drawn.push(make('text', { class: 'soft', x: LABEL + (s * 10 - first()) * CELL, y: y + 12, 'text-anchor': s === 20 ? 'end' : s * 10 > first() ? 'middle' : 'start' }, s === 20 ? 'now' : `${s - 20} s`));
  }
  svg.setAttribute('viewBox', `0 -2 ${LABEL + (CELLS - first()) * CELL + 2} ${y + 18}`);
  svg.replaceChildren(...drawn);
  tell();
}

// Tells of the cell under the cursor.
function tell() {
  const found = rows()[cursor.row];
  if (cursor.cell < 0 || !found) return;
  const { pmu, row } = found;
  const letter = row.cells[cursor.cell];
  const when = utc(data.untilMs - (CELLS - cursor.cell) * 100);
  const stat = statAt(row, cursor.cell);
  at('told').textContent = `${pmu.name} (${pmu.source}) on ${row.stream}, ${when}: ${SAID[letter]}`
    + (letter === 'w' || letter === 'g' ? `; STAT ${stat.toString(16).toUpperCase().padStart(4, '0')}: ${statWords(stat)}` : '');
}

function point(event) {
  if (!data) return;
  const svg = at('matrix'), box = svg.getBoundingClientRect(), view = svg.viewBox.baseVal;
  const x = (event.clientX - box.left) / box.width * view.width, y = (event.clientY - box.top) / box.height * view.height + view.y;
  const group = Math.floor(y / (3 * ROW + 4));
  cursor.row = Math.min(rows().length - 1, Math.max(0, group * 3 + Math.min(2, Math.floor((y - group * (3 * ROW + 4)) / ROW))));
  cursor.cell = Math.min(CELLS - 1, Math.max(first(), first() + Math.floor((x - LABEL) / CELL)));
  drawMatrix();
}

function move(event) {
  const step = { ArrowLeft: [0, -1], ArrowRight: [0, 1], ArrowUp: [-1, 0], ArrowDown: [1, 0] }[event.key];
  if (!step || !data) return;
  event.preventDefault();
  if (cursor.cell < 0) cursor.cell = CELLS - 1;
  cursor.row = Math.min(rows().length - 1, Math.max(0, cursor.row + step[0]));
  cursor.cell = Math.min(CELLS - 1, Math.max(first(), cursor.cell + step[1]));
  drawMatrix();
}

// Magnitude and angle of a phasor, the angle in degrees.
function polar(phasor) {
  return phasor.magnitude !== null ? { size: phasor.magnitude, angle: phasor.angleRad * 180 / Math.PI }
    : { size: Math.hypot(phasor.re, phasor.im), angle: Math.atan2(phasor.im, phasor.re) * 180 / Math.PI };
}

const turned = angle => ((angle + 180) % 360 + 360) % 360 - 180;
const amount = (size, unit) => size >= 1e6 ? (size / 1e6).toFixed(3) + ' M' + unit : size >= 1e3 ? (size / 1e3).toFixed(3) + ' k' + unit : size.toFixed(2) + ' ' + unit;

// Puts the choices into a list, and keeps what is chosen.
function choices(id, options, chosen) {
  const list = at(id);
  if (list.dataset.of !== JSON.stringify(options)) {
    list.dataset.of = JSON.stringify(options);
    list.replaceChildren(...options.map(([value, text]) => make('option', { value }, text)));
  }
  list.value = options.some(([value]) => value === chosen) ? chosen : options.length ? options[0][0] : '';
  return list.value;
}

function drawPhasors() {
  const source = choices('chosen', data.pmus.map(pmu => [String(pmu.source), `${pmu.source} ${pmu.name}`]), at('chosen').value);
  reference = choices('reference', [['', 'UTC'], ...data.pmus.filter(pmu => pmu.phasors.length)
    .map(pmu => [String(pmu.source), `${pmu.source} ${pmu.phasors[0].name}`])], reference);
  const pmu = data.pmus.find(pmu => String(pmu.source) === source);
  const against = data.pmus.find(pmu => String(pmu.source) === reference);
  const zero = against ? polar(against.phasors[0]).angle : 0;
  // What is said of the values that are shown, and of those that their angles are told against.
  const { state, said } = pmu ? doubt(pmu) : { state: 'none', said: '' };
  const reserve = against && against !== pmu && doubt(against).said ? `angles against ${against.source}: ${doubt(against).said}` : '';
  const drawn = [make('circle', { class: 'axis', r: 100 }), make('circle', { class: 'axis', r: 50 }), make('path', { class: 'axis', d: 'M-104 0H104M0-104V104' })];
  const lines = [];
  const phasors = pmu ? pmu.phasors.map(phasor => ({ ...phasor, ...polar(phasor) })) : [];
  const longest = unit => Math.max(1e-9, ...phasors.filter(phasor => phasor.unit === unit).map(phasor => phasor.size));
  phasors.forEach((phasor, place) => {
    const angle = turned(phasor.angle - zero), color = COLORS[place % COLORS.length];
    const length = phasor.size / longest(phasor.unit) * (phasor.unit === 'V' ? 92 : 62), way = angle * Math.PI / 180;
    const x = length * Math.cos(way), y = -length * Math.sin(way);
    drawn.push(make('line', { x1: 0, y1: 0, x2: x, y2: y, stroke: color, 'stroke-width': phasor.unit === 'V' ? 2.5 : 1.5, 'stroke-dasharray': phasor.unit === 'V' ? 'none' : '5 3' }));
    drawn.push(make('circle', { cx: x, cy: y, r: 3, fill: color }));
    drawn.push(make('text', { x: x * 1.1, y: y * 1.1 + 3, 'text-anchor': x < 0 ? 'end' : 'start' }, phasor.name.slice(0, 10)));
    lines.push(make('tr', {}, make('td', { style: `color:${color}` }, phasor.name), make('td', {}, amount(phasor.size, phasor.unit)), make('td', {}, angle.toFixed(2) + '°')));
  });
  if (pmu) {
    lines.push(make('tr', {}, make('td', {}, 'frequency'), make('td', {}, pmu.frequencyHz === null ? '–' : pmu.frequencyHz.toFixed(3) + ' Hz'),
      make('td', {}, pmu.rocofHzPerS === null ? '–' : pmu.rocofHzPerS.toFixed(2) + ' Hz/s')));
    pmu.analogs.forEach(analog => lines.push(make('tr', {}, make('td', {}, analog.name), make('td', {}, String(analog.value)), make('td', {}, 'counts'))));
    pmu.digitals.forEach((word, place) => lines.push(make('tr', {}, make('td', {}, 'digital ' + (place + 1)), make('td', {}, word.toString(16).toUpperCase().padStart(4, '0')), make('td', {}, 'hex'))));
  }
  at('polar').dataset.state = state;
  at('doubt').textContent = [said, reserve].filter(text => text).join('; ');
  at('circle').replaceChildren(...drawn);
  put('values', ...lines);
}

// The step of an axis over such a range: 1, 2 or 5 of a power of ten, and no less than the least, so that it has four steps and a few.
function roundStep(range, least) {
  for (let power = least; power < 1e9; power *= 10) for (const factor of [1, 2, 5]) if (power * factor * 4 >= range) return power * factor;
  return range;
}

// A strip: one line for each PMU, with gaps where nothing came.
function drawStrip(id, unit, digits, values) {
  const all = values.flat().filter(value => value !== null);
  let low = Math.min(...all), high = Math.max(...all);
  const drawn = [];
  if (all.length) {
    const step = roundStep(high - low, 10 ** -digits);
    let bottom = Math.floor(low / step + 1e-6), top = Math.ceil(high / step - 1e-6);
    if (top - bottom < 2) { bottom--; top = bottom + 2; }
    low = bottom * step; high = top * step;
    for (let line = bottom; line <= top; line++) {
      const y = 112 - (line - bottom) / (top - bottom) * 104;
      drawn.push(make('path', { class: 'axis', d: `M70 ${y}H600` }),
        make('text', { class: 'soft', x: 66, y: y + 3, 'text-anchor': 'end', 'data-value': (line * step).toFixed(digits) }, (line * step).toFixed(digits) + ' ' + unit));
    }
    values.forEach((points, place) => {
      const runs = [[]];
      points.forEach((value, k) => {
        if (value === null) { if (runs[runs.length - 1].length) runs.push([]); return; }
        runs[runs.length - 1].push((70 + k * 530 / (points.length - 1)).toFixed(1) + ',' + (112 - (value - low) / (high - low) * 104).toFixed(1));
      });
      const chosen = String(data.pmus[place].source) === at('chosen').value;
      runs.filter(run => run.length).forEach(run => drawn.push(make('polyline', { class: chosen ? 'trace chosen' : 'trace', points: run.join(' '),
        stroke: COLORS[place % COLORS.length], 'stroke-dasharray': place < COLORS.length ? 'none' : '4 2' })));
    });
  }
  for (let s = 0; s <= 60; s += 20) drawn.push(make('text', { class: 'soft', x: 70 + s * 530 / 60, y: 126, 'text-anchor': s === 60 ? 'end' : s ? 'middle' : 'start' }, s === 60 ? 'now' : `${s - 60} s`));
  at(id).replaceChildren(...drawn);
}

function drawStrips() {
  drawStrip('frequency', 'Hz', 3, data.pmus.map(pmu => pmu.deviationMhz.map(value => value === null ? null : pmu.nominalHz + value / 1000)));
  drawStrip('rocof', 'Hz/s', 2, data.pmus.map(pmu => pmu.rocofChzPerS.map(value => value === null ? null : value / 100)));
  put('legend', ...data.pmus.map((pmu, place) => make('span', {}, make('i', { style: `background:${COLORS[place % COLORS.length]}` }), `${pmu.source} ${pmu.name}`)));
}

function draw() {
  drawAgreement();
  drawPair();
  drawMatrix();
  drawPhasors();
  drawStrips();
}

async function read() {
  try {
    const answer = await fetch('data.json', { cache: 'no-store', signal: AbortSignal.timeout(4000) });
    data = await answer.json();
    data.pmus.sort((one, other) => one.source - other.source);
    draw();
    document.body.dataset.state = 'read';
  } catch (error) {
    document.body.dataset.state = 'lost';
    at('clock').textContent = 'pdc watch does not answer';
  }
  setTimeout(read, PERIOD);
}

at('matrix').addEventListener('pointermove', point);
at('matrix').addEventListener('pointerdown', point);
at('matrix').addEventListener('keydown', move);
at('chosen').addEventListener('change', () => data && draw());
at('reference').addEventListener('change', event => { reference = event.target.value; if (data) draw(); });
read();
