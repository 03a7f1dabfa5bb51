'use strict';
// Draws a run on a canvas. Nothing is drawn entry by entry unless it is wider than a pixel: what is
// narrower is gathered by the pixel column that it falls into.
(async function () {
  const byId = (id) => document.getElementById(id);
  const facts = JSON.parse(byId('facts').textContent);
  const picture = byId('picture'), whole = byId('whole'), reading = byId('reading');

  async function unpacked() {
    const letters = atob(byId('data').textContent);
    const bytes = new Uint8Array(letters.length);
    for (let i = 0; i < letters.length; i++) bytes[i] = letters.charCodeAt(i);
    byId('data').textContent = '';
    const opened = new Blob([bytes]).stream().pipeThrough(new DecompressionStream('deflate'));
    const buffer = await new Response(opened).arrayBuffer();
    const kinds = { Uint8: Uint8Array, Uint16: Uint16Array, Uint32: Uint32Array, Int32: Int32Array };
    const made = {};
    for (const [name, [kind, place, count]] of Object.entries(facts.arrays))
      made[name] = new kinds[kind](buffer, place, count);
    return made;
  }
  const all = await unpacked();
  const part = (name) => Object.fromEntries(Object.entries(all).filter(([key]) =>
    key.startsWith(name + '.')).map(([key, values]) => [key.slice(name.length + 1), values]));
  const turns = part('turns'), calls = part('calls'), devices = part('devices');
  const rescues = part('rescues');
  const steps = Math.max(facts.steps, 1), WAYS = ['read', 'write', 'close'];
  const NEAREST = 12;
  const number = (n) => Math.round(n).toLocaleString('en');

  // ---- lanes

  const laneOf = new Uint8Array(256);
  facts.harts.forEach((hart, place) => { laneOf[hart] = place; });
  const deepest = facts.harts.map(() => -1);
  for (let i = 0; i < calls.start.length; i++) {
    const lane = laneOf[calls.hart[i]];
    if (calls.level[i] > deepest[lane]) deepest[lane] = calls.level[i];
  }
  const shownLevels = deepest.map((level) => Math.min(level, 7));
  const LEFT = 74, TOP = 34, INSET = 7;
  const laneTop = [], laneHeight = [];
  let bottom = TOP;
  shownLevels.forEach((level) => {
    laneTop.push(bottom);
    laneHeight.push(40 + INSET * (level + 1));
    bottom += 40 + INSET * (level + 1) + 6;
  });
  const HEIGHT = bottom + 6;
  const firstOf = facts.harts.map(() => Infinity), lastOf = facts.harts.map(() => 0);
  const reach = (hart, from, to) => {
    const lane = laneOf[hart];
    if (from < firstOf[lane]) firstOf[lane] = from;
    if (to > lastOf[lane]) lastOf[lane] = to;
  };
  for (let i = 0; i < turns.start.length; i++)
    reach(turns.hart[i], turns.start[i], turns.start[i] + turns.length[i]);
  for (let i = 0; i < devices.start.length; i++)
    reach(devices.hart[i], devices.start[i], devices.start[i] + 1);

  // The place of the last that isn't larger, or -1.
  function lastAtMost(values, wanted) {
    let low = 0, high = values.length;
    while (low < high) {
      const middle = (low + high) >> 1;
      if (values[middle] <= wanted) low = middle + 1; else high = middle;
    }
    return low - 1;
  }

  // ---- the view

  let from = 0, to = steps, chosen = -1, waiting = false;
  const colour = {};
  function readColours() {
    const style = getComputedStyle(document.documentElement);
    for (const name of ['paper', 'ink', 'soft', 'line', 'panel', 'turn', 'call', 'rescue',
      'rescue-fill', 'device', 'focus', 'mark'])
      colour[name] = style.getPropertyValue('--' + name).trim();
  }
  function show(newFrom, newTo) {
    const span = Math.min(Math.max(newTo - newFrom, Math.min(NEAREST, steps)), steps);
    const middle = (newFrom + newTo) / 2;
    from = Math.min(Math.max(middle - span / 2, 0), steps - span);
    to = from + span;
    later();
  }
  function later() {
    if (!waiting) { waiting = true; requestAnimationFrame(() => { waiting = false; draw(); }); }
  }
  const zoom = (factor, at) => {
    const middle = at === undefined ? (from + to) / 2 : at;
    show(middle - (middle - from) * factor, middle + (to - middle) * factor);
  };
  const move = (share) => show(from + share * (to - from), to + share * (to - from));

  function fitted(canvas, height) {
    const ratio = window.devicePixelRatio || 1, width = canvas.clientWidth;
    if (canvas.width !== Math.round(width * ratio) || canvas.height !== Math.round(height * ratio)) {
      canvas.style.height = height + 'px';
      canvas.width = Math.round(width * ratio);
      canvas.height = Math.round(height * ratio);
    }
    const pen = canvas.getContext('2d');
    pen.setTransform(ratio, 0, 0, ratio, 0, 0);
    pen.clearRect(0, 0, width, height);
    pen.fillStyle = colour.paper;
    pen.fillRect(0, 0, width, height);
    return [pen, width];
  }
  const hatches = {};
  function hatch(pen) {
    const key = colour.rescue + colour['rescue-fill'];
    if (!hatches[key]) {
      const tile = document.createElement('canvas');
      tile.width = tile.height = 8;
      const inner = tile.getContext('2d');
      inner.fillStyle = colour['rescue-fill'];
      inner.fillRect(0, 0, 8, 8);
      inner.strokeStyle = colour.rescue;
      inner.lineWidth = 1;
      inner.beginPath();
      for (const shift of [-8, 0, 8]) { inner.moveTo(shift, 8); inner.lineTo(shift + 8, 0); }
      inner.stroke();
      hatches[key] = tile;
    }
    return pen.createPattern(hatches[key], 'repeat');
  }
  const barTop = (lane) => laneTop[lane] + laneHeight[lane] - 27;
  const boxTop = (lane, level) => laneTop[lane] + 1 + INSET * Math.min(level, 7);
  const boxBottom = (lane, level) => laneTop[lane] + laneHeight[lane] - Math.min(level, 4);

  function axis(pen, width) {
    const room = Math.max(2, Math.floor((width - LEFT) / 110)), raw = (to - from) / room;
    const power = Math.pow(10, Math.floor(Math.log10(Math.max(raw, 1))));
    const tick = Math.max(1, [1, 2, 5, 10].map((k) => k * power).find((k) => k >= raw));
    pen.font = '12px system-ui, "Liberation Sans", sans-serif';
    pen.textBaseline = 'alphabetic';
    pen.fillStyle = colour.soft;
    pen.textAlign = 'left';
    pen.fillText('steps', 8, 18);
    pen.textAlign = 'center';
    for (let at = Math.ceil(from / tick) * tick; at <= to; at += tick) {
      const x = LEFT + (at - from) * scale(width);
      pen.fillStyle = colour.line;
      pen.fillRect(x, TOP - 8, 1, HEIGHT);
      pen.fillStyle = colour.soft;
      const half = pen.measureText(number(at)).width / 2;
      pen.fillText(number(at), Math.min(Math.max(x, LEFT + half), width - half - 3), 18);
    }
  }
  const scale = (width) => (width - LEFT - 10) / (to - from);

  function drawNames(pen, width) {
    pen.textAlign = 'left';
    facts.harts.forEach((hart, lane) => {
      pen.fillStyle = colour.ink;
      pen.font = '13px system-ui, "Liberation Sans", sans-serif';
      pen.fillText('hart ' + hart, 8, barTop(lane) + 10);
      pen.fillStyle = colour.line;
      pen.fillRect(0, laneTop[lane] + laneHeight[lane] + 3, width, 1);
    });
  }

  // From the first to the last act of each hart a thin line: where no turn is on it, the hart waits,
  // or another one has its turn.
  function drawGaps(pen, k) {
    pen.fillStyle = colour.soft;
    facts.harts.forEach((hart, lane) => {
      const x0 = Math.max(LEFT, LEFT + (firstOf[lane] - from) * k);
      const x1 = LEFT + (Math.min(lastOf[lane], to) - from) * k;
      for (let x = x0; x < x1; x += 6) pen.fillRect(x, barTop(lane) + 5, Math.min(3, x1 - x), 1);
    });
  }

  function drawCalls(pen, k, width) {
    const lanes = facts.harts.length, columns = Math.ceil(width), begin = lastAtMost(calls.start, from);
    const stop = lastAtMost(calls.start, to), list = [];
    for (let i = begin < 0 ? -1 : calls.parent[begin]; i >= 0; i = calls.parent[i]) list.unshift(i);
    const narrow = new Uint32Array(lanes * columns), taken = new Uint32Array(lanes * columns);
    const wide = [];
    const put = (i) => {
      const x0 = LEFT + (calls.start[i] - from) * k, x1 = LEFT + (calls.end[i] - from) * k;
      if (x1 < LEFT) return;
      if (x1 - x0 >= 3) { wide.push(i); return; }
      const at = laneOf[calls.hart[i]] * columns + Math.max(LEFT, Math.floor(x0));
      if (calls.rescue[i] >= 0) taken[at]++; else narrow[at]++;
    };
    list.forEach(put);
    for (let i = Math.max(begin, 0); i <= stop; i++) put(i);
    wide.forEach((i) => drawCall(pen, k, width, i));
    const most = Math.max(taken.reduce((a, b) => Math.max(a, b), 1), 4);
    const heights = new Uint8Array(narrow.length);
    for (let at = 0; at < narrow.length; at++) {
      const lane = Math.floor(at / columns);
      if (taken[at]) heights[at] = Math.round(6 + (barTop(lane) - laneTop[lane] - 14) * taken[at] / most);
      narrow[at] = narrow[at] ? 1 : 0;
    }
    pen.fillStyle = colour.call;
    inRows(narrow, columns, (lane, x, count) => pen.fillRect(x, barTop(lane) - 7, count, 5));
    pen.fillStyle = colour.rescue;
    inRows(heights, columns, (lane, x, count, high) => pen.fillRect(x, barTop(lane) - 2 - high, count, high));
    let last = -20, lastLane = -1;
    inRows(heights, columns, (lane, x) => {
      if (lane === lastLane && x - last <= 24) return;
      cross(pen, x + 0.5, laneTop[lane] + 4); last = x; lastLane = lane;
    });
  }
  function drawCall(pen, k, width, i) {
    const lane = laneOf[calls.hart[i]], level = calls.level[i], rescued = calls.rescue[i] >= 0;
    const left = LEFT + (calls.start[i] - from) * k, right = LEFT + (calls.end[i] - from) * k;
    const x0 = Math.max(left, LEFT - 4), x1 = Math.min(right, width + 4);
    const top = boxTop(lane, level), low = boxBottom(lane, level);
    pen.fillStyle = rescued ? hatch(pen) : colour.panel;
    pen.fillRect(x0, top, x1 - x0, low - top);
    pen.strokeStyle = rescued ? colour.rescue : colour.call;
    pen.lineWidth = rescued ? 2 : 1;
    pen.beginPath();
    pen.moveTo(x1, top + 0.5); pen.lineTo(x0 + 0.5, top + 0.5); pen.lineTo(x0 + 0.5, low - 0.5);
    pen.lineTo(x1, low - 0.5);
    pen.stroke();
    pen.setLineDash(rescued ? [] : [2, 3]);
    pen.beginPath(); pen.moveTo(x1 - 0.5, top); pen.lineTo(x1 - 0.5, low); pen.stroke();
    pen.setLineDash([]);
    const shown = Math.max(x0, LEFT);
    label(pen, i, rescued, shown + 4, top, x1 - shown - 6);
    if (rescued && calls.rescue[i] === chosen) {
      pen.strokeStyle = colour.focus; pen.lineWidth = 3;
      pen.strokeRect(x0 - 2, top - 2, x1 - x0 + 4, low - top + 4);
    }
    if (rescued) cross(pen, (Math.max(left, LEFT) + x1) / 2, top);
  }
  function label(pen, i, rescued, x, top, room) {
    if (room < 40) return;
    let text = facts.points[calls.point[i]];
    if (rescued) text = '\u00d7 ' + text + ': ' + facts.groups[rescues.group[calls.rescue[i]]].fault;
    pen.font = (rescued ? 'bold ' : '') + '11px system-ui, "Liberation Sans", sans-serif';
    pen.textAlign = 'left';
    while (text.length > 3 && pen.measureText(text).width > room) text = text.slice(0, -2) + '\u2026';
    if (text.length <= 3) return;
    pen.fillStyle = colour.paper;
    pen.fillRect(x - 2, top + 2, pen.measureText(text).width + 4, 12);
    pen.fillStyle = rescued ? colour.rescue : colour.call;
    pen.fillText(text, x, top + 11.5);
  }
  function cross(pen, x, y) {
    if (x < LEFT) return;
    pen.lineWidth = 4; pen.strokeStyle = colour.paper;
    for (let round = 0; round < 2; round++) {
      pen.beginPath();
      pen.moveTo(x - 3.5, y - 3.5); pen.lineTo(x + 3.5, y + 3.5);
      pen.moveTo(x + 3.5, y - 3.5); pen.lineTo(x - 3.5, y + 3.5);
      pen.stroke();
      pen.lineWidth = 2; pen.strokeStyle = colour.rescue;
    }
  }

  function drawTurns(pen, k, width) {
    const columns = Math.ceil(width), cover = new Float32Array(facts.harts.length * columns);
    const begin = Math.max(lastAtMost(turns.start, from), 0), stop = lastAtMost(turns.start, to);
    pen.fillStyle = colour.turn;
    for (let i = begin; i <= stop; i++) {
      const lane = laneOf[turns.hart[i]];
      let x0 = LEFT + (turns.start[i] - from) * k;
      const x1 = Math.min(LEFT + (turns.start[i] + turns.length[i] - from) * k, width);
      if (x1 <= LEFT) continue;
      x0 = Math.max(x0, LEFT);
      if (x1 - x0 >= 2) pen.fillRect(x0, barTop(lane), x1 - x0 - (x1 - x0 > 6 ? 1 : 0), 11);
      else gather(cover, lane * columns, x0, x1);
    }
    const heights = new Uint8Array(cover.length);
    for (let at = 0; at < cover.length; at++)
      if (cover[at]) heights[at] = Math.max(2, Math.round(11 * Math.min(cover[at], 1)));
    inRows(heights, columns, (lane, x, count, height) =>
      pen.fillRect(x, barTop(lane) + 11 - height, count, height));
  }
  // Columns side by side that look alike are drawn as one.
  function inRows(values, columns, paint) {
    for (let at = 0; at < values.length;) {
      const value = values[at], lane = Math.floor(at / columns), end = (lane + 1) * columns;
      let next = at + 1;
      while (next < end && values[next] === value) next++;
      if (value) paint(lane, at - lane * columns, next - at, value);
      at = next;
    }
  }
  function gather(cover, base, x0, x1) {
    const first = Math.floor(x0), last = Math.floor(x1);
    if (first === last) { cover[base + first] += x1 - x0; return; }
    cover[base + first] += first + 1 - x0;
    cover[base + last] += x1 - last;
    if (last - first > 1) cover[base + first + 1] += 1;
  }

  function drawDevices(pen, k, width) {
    const columns = Math.ceil(width), ways = new Uint8Array(facts.harts.length * columns);
    const begin = Math.max(lastAtMost(devices.start, from), 0), stop = lastAtMost(devices.start, to);
    for (let i = begin; i <= stop; i++) {
      const x = Math.floor(LEFT + (devices.start[i] - from) * k);
      if (x >= LEFT && x < columns) ways[laneOf[devices.hart[i]] * columns + x] |= 1 << devices.way[i];
    }
    let last = -10, lastLane = -1;
    inRows(ways, columns, (lane, x, count, ways) => {
      const crowded = count > 1 || (lane === lastLane && x - last < 6);
      device(pen, x, barTop(lane) + 14, ways, crowded ? count : 0);
      last = x + count - 1; lastLane = lane;
    });
  }
  // A read points up, into the hart; a write down; a close is a square.
  function device(pen, x, y, ways, crowded) {
    pen.fillStyle = colour.device;
    if (crowded) {
      if (ways & 1) pen.fillRect(x, y, crowded, 4);
      if (ways & 2) pen.fillRect(x, y + 5, crowded, 4);
      if (ways & 4) pen.fillRect(x, y, crowded, 9);
      return;
    }
    const mark = (...places) => {
      pen.beginPath();
      places.forEach(([px, py]) => pen.lineTo(px, py));
      pen.closePath(); pen.fill();
    };
    if (ways & 1) mark([x + 0.5, y], [x + 3.5, y + 5], [x - 2.5, y + 5]);
    if (ways & 2) mark([x - 2.5, y + 5], [x + 3.5, y + 5], [x + 0.5, y + 10]);
    if (ways & 4) pen.fillRect(x - 2, y + 2, 6, 6);
  }

  function drawEnd(pen, k, width) {
    const x = LEFT + (steps - from) * k;
    if (!facts.end || x < LEFT || x > width + 2) return;
    pen.fillStyle = colour.ink;
    pen.fillRect(x - 1, TOP - 6, 2, HEIGHT);
    const lane = (laneOf[facts.endHart] || 0);
    pen.fillRect(x - 4, barTop(lane) + 1, 8, 9);
    pen.font = 'bold 12px system-ui, "Liberation Sans", sans-serif';
    pen.textAlign = 'right';
    const text = 'end: ' + facts.end;
    pen.fillStyle = colour.paper;
    pen.fillRect(x - 8 - pen.measureText(text).width, TOP - 14, pen.measureText(text).width + 4, 13);
    pen.fillStyle = colour.ink;
    pen.fillText(text, x - 6, TOP - 3);
  }

  function draw() {
    const [pen, width] = fitted(picture, HEIGHT), k = scale(width);
    axis(pen, width);
    drawNames(pen, width);
    pen.save();
    pen.beginPath(); pen.rect(LEFT - 1, 0, width, HEIGHT); pen.clip();
    drawGaps(pen, k);
    drawCalls(pen, k, width);
    drawTurns(pen, k, width);
    drawDevices(pen, k, width);
    drawEnd(pen, k, width);
    pen.restore();
    drawWhole();
    byId('range').textContent = 'steps ' + number(from) + ' to ' + number(to) + ' of ' + number(facts.steps);
    for (const [id, off] of [['in', to - from <= NEAREST], ['out', to - from >= steps],
      ['left', from <= 0], ['right', to >= steps], ['previous', !rescues.start.length],
      ['next', !rescues.start.length]]) byId(id).disabled = off;
    picture.dataset.from = Math.round(from); picture.dataset.to = Math.round(to);
    picture.dataset.drawn = 'yes';
  }

  // The whole run in a strip: how dense the rescues are, and a frame round what is shown.
  let density = null;
  function drawWhole() {
    const [pen, width] = fitted(whole, 40), room = width - LEFT - 10, k = room / steps;
    if (!density || density.length !== Math.ceil(room)) {
      density = new Uint32Array(Math.ceil(room));
      for (let i = 0; i < rescues.start.length; i++)
        density[Math.min(Math.floor(rescues.start[i] * k), density.length - 1)]++;
    }
    const most = density.reduce((a, b) => Math.max(a, b), 1);
    pen.font = '12px system-ui, "Liberation Sans", sans-serif';
    pen.fillStyle = colour.soft;
    pen.fillText('rescues,', 8, 16); pen.fillText('whole run', 8, 31);
    pen.fillStyle = colour.panel;
    pen.fillRect(LEFT, 3, room, 34);
    pen.fillStyle = colour.rescue;
    density.forEach((count, x) => {
      if (count) pen.fillRect(LEFT + x, 36 - Math.max(5, 30 * count / most), 1.5, Math.max(5, 30 * count / most));
    });
    pen.strokeStyle = colour.focus; pen.lineWidth = 2;
    pen.strokeRect(LEFT + from * k, 2, Math.max((to - from) * k, 3), 36);
  }

  // ---- what is read out

  function callsAt(step) {
    const found = [];
    for (let i = lastAtMost(calls.start, step); i >= 0; i = calls.parent[i])
      if (calls.end[i] > step) found.unshift(i);
    return found;
  }
  function describe(step) {
    const words = ['step ' + number(Math.floor(step))];
    const i = lastAtMost(turns.start, step);
    if (i >= 0 && step < turns.start[i] + turns.length[i])
      words.push('hart ' + turns.hart[i] + ' has a turn of ' + number(turns.length[i]) + ' steps');
    const span = Math.max(4 * (to - from) / picture.clientWidth, 1);
    const d = lastAtMost(devices.start, step + span / 2);
    if (d >= 0 && devices.start[d] > step - span)
      words.push('hart ' + devices.hart[d] + ' makes a ' + WAYS[devices.way[d]] + ' at port ' +
        devices.port[d] + ', answered ' + devices.answer[d] + (devices.rescue[d] >= 0 ? ', in a call that is taken back' : ''));
    for (const call of callsAt(step)) words.push('in ' + facts.points[calls.point[call]] +
      (calls.rescue[call] >= 0 ? ' (taken back: ' + facts.groups[rescues.group[calls.rescue[call]]].fault + ')' : ''));
    return words.join('; ') + '.';
  }
  function choose(rescue) {
    chosen = rescue;
    const group = facts.groups[rescues.group[rescue]];
    const length = Math.max(rescues.end[rescue] - rescues.start[rescue], 4);
    show(rescues.start[rescue] - 0.75 * length, rescues.end[rescue] + 0.75 * length);
    reading.textContent = 'Rescue ' + number(rescue + 1) + ' of ' + number(rescues.start.length) + ': ' +
      group.point + ' on hart ' + rescues.hart[rescue] + ', ' + group.fault + ' in ' + group.place +
      (group.line ? ' (' + group.line + ')' : '') + ', steps ' + number(rescues.start[rescue]) + ' to ' +
      number(rescues.end[rescue]) + ', depth ' + rescues.depth[rescue] + ', records ' +
      number(rescues.records[rescue]) + (rescues.staying[rescue] ? ', of which ' +
      number(rescues.staying[rescue]) + ' stay' : '') + '.';
    document.querySelectorAll('tr[data-group]').forEach((row) =>
      row.classList.toggle('chosen', Number(row.dataset.group) === rescues.group[rescue]));
  }
  function neighbour(way) {
    if (!rescues.start.length) return;
    if (chosen >= 0) { choose((chosen + way + rescues.start.length) % rescues.start.length); return; }
    const at = lastAtMost(rescues.start, from);
    choose(Math.min(Math.max(way > 0 ? at + 1 : at, 0), rescues.start.length - 1));
  }

  // ---- hands

  const stepAt = (event) => {
    const box = picture.getBoundingClientRect();
    return from + (event.clientX - box.left - LEFT) / scale(box.width);
  };
  let held = null;
  picture.addEventListener('pointerdown', (event) => {
    held = { x: event.clientX, from, to, moved: false };
    picture.setPointerCapture(event.pointerId);
  });
  picture.addEventListener('pointermove', (event) => {
    if (held) {
      const by = (held.x - event.clientX) / scale(picture.clientWidth);
      if (Math.abs(held.x - event.clientX) > 3) held.moved = true;
      if (held.moved) show(held.from + by, held.to + by);
    } else reading.textContent = describe(stepAt(event));
  });
  picture.addEventListener('pointerup', (event) => {
    if (held && !held.moved) {
      const inside = callsAt(stepAt(event)).filter((i) => calls.rescue[i] >= 0);
      if (inside.length) { choose(calls.rescue[inside[inside.length - 1]]); }
      else reading.textContent = describe(stepAt(event));
    }
    held = null;
  });
  picture.addEventListener('wheel', (event) => {
    event.preventDefault();
    if (event.shiftKey || Math.abs(event.deltaX) > Math.abs(event.deltaY))
      move((event.deltaX || event.deltaY) / 800);
    else zoom(Math.exp(event.deltaY / 400), stepAt(event));
  }, { passive: false });
  const jump = (event) => {
    const box = whole.getBoundingClientRect(), half = (to - from) / 2;
    const at = (event.clientX - box.left - LEFT) / (box.width - LEFT - 10) * steps;
    show(at - half, at + half);
  };
  whole.addEventListener('pointerdown', (event) => { whole.setPointerCapture(event.pointerId); jump(event); });
  whole.addEventListener('pointermove', (event) => { if (event.buttons) jump(event); });
  const acts = {
    in: () => zoom(0.5), out: () => zoom(2), left: () => move(-0.25), right: () => move(0.25),
    all: () => show(0, steps), previous: () => neighbour(-1), next: () => neighbour(1),
  };
  for (const [id, act] of Object.entries(acts)) byId(id).addEventListener('click', act);
  const keys = {
    ArrowLeft: acts.left, ArrowRight: acts.right, '+': acts.in, '=': acts.in, '-': acts.out,
    0: acts.all, n: acts.next, p: acts.previous, Home: () => show(0, to - from),
    End: () => show(steps - (to - from), steps),
  };
  picture.addEventListener('keydown', (event) => {
    if (event.ctrlKey || event.metaKey || event.altKey || !keys[event.key]) return;
    event.preventDefault();
    keys[event.key]();
    if (event.key !== 'n' && event.key !== 'p') reading.textContent = describe((from + to) / 2);
  });

  // ---- the table

  document.querySelectorAll('button[data-go]').forEach((button) => button.addEventListener('click', () => {
    const group = Number(button.closest('tr').dataset.group), count = rescues.start.length;
    let place = button.dataset.go === 'next' && chosen >= 0 ? chosen + 1 : 0;
    for (let tried = 0; tried < count; tried++, place++)
      if (rescues.group[place % count] === group) { choose(place % count); break; }
    picture.scrollIntoView({ block: 'center' });
  }));
  const find = byId('find');
  if (find) find.addEventListener('input', () => {
    const wanted = find.value.trim().toLowerCase().split(/\s+/);
    let shown = 0;
    document.querySelectorAll('tr[data-group]').forEach((row) => {
      const text = row.textContent.toLowerCase();
      row.hidden = !wanted.every((word) => text.includes(word));
      if (!row.hidden) shown++;
    });
    byId('found').textContent = shown + ' of ' + facts.groups.length + ' rows';
  });

  // ---- the ports

  const NAMES = { '0 read': 'standard input', '1 write': 'standard output', '2 write': 'standard error' };
  const PART = 8192;
  const streamChoice = byId('stream');
  let place = 0;
  const pieces = facts.streams.map((_, s) => {
    const lengths = all['stream' + s + '.length'], starts = new Uint32Array(lengths.length);
    for (let i = 1; i < lengths.length; i++) starts[i] = starts[i - 1] + lengths[i - 1];
    return { starts, lengths, rescue: all['stream' + s + '.rescue'], data: all['stream' + s + '.data'] };
  });
  facts.streams.forEach((stream, s) => {
    const option = document.createElement('option'), name = NAMES[stream.port + ' ' + stream.way];
    option.value = s;
    option.textContent = stream.port + ' ' + stream.way + (name ? ' (' + name + ')' : '') + ', ' +
      number(stream.total) + ' bytes';
    streamChoice.append(option);
  });
  const wrote = facts.streams.findIndex((stream) => stream.way === 'write');
  if (wrote >= 0) streamChoice.value = wrote;
  const printed = (bytes) => byId('form').value === 'bytes'
    ? Array.from(bytes, (b) => b.toString(16).padStart(2, '0')).join(' ') + ' '
    : new TextDecoder().decode(bytes).replace(/[\u0000-\u0008\u000b-\u001f\u007f]/g, (c) =>
      '\\x' + c.charCodeAt(0).toString(16).padStart(2, '0'));
  function showPart() {
    const box = byId('bytes');
    box.textContent = '';
    if (!facts.streams.length) { byId('part').textContent = 'nothing was read or written'; return; }
    const piece = pieces[Number(streamChoice.value)], size = piece.data.length;
    place = Math.max(0, Math.min(place, Math.floor(Math.max(size - 1, 0) / PART) * PART));
    const stop = Math.min(place + PART, size);
    let i = Math.max(lastAtMost(piece.starts, place), 0), at = place;
    while (at < stop) {
      const mark = piece.rescue[i];
      let end = at;
      while (i < piece.lengths.length && piece.rescue[i] === mark && piece.starts[i] < stop) {
        end = Math.min(piece.starts[i] + piece.lengths[i], stop); i++;
      }
      if (end <= at) break;
      add(box, piece.data.subarray(at, end), mark);
      at = end;
    }
    const total = facts.streams[Number(streamChoice.value)].total;
    byId('part').textContent = 'bytes ' + number(place) + ' to ' + number(stop) + ' of ' + number(size) +
      (total > size ? '; ' + number(total - size) + ' more went and are not in this page' : '');
    byId('earlier-part').disabled = place === 0;
    byId('later-part').disabled = stop >= size;
  }
  function add(box, bytes, rescue) {
    const text = printed(bytes);
    if (rescue < 0) { box.append(text); return; }
    const mark = document.createElement('mark');
    mark.textContent = '\u27e6' + text + '\u27e7';
    mark.tabIndex = 0;
    mark.title = 'In a call that was taken back';
    const go = () => { choose(rescue); picture.scrollIntoView({ block: 'center' }); };
    mark.addEventListener('click', go);
    mark.addEventListener('keydown', (event) => { if (event.key === 'Enter') go(); });
    box.append(mark);
  }
  streamChoice.addEventListener('change', () => { place = 0; showPart(); });
  byId('form').addEventListener('change', showPart);
  byId('earlier-part').addEventListener('click', () => { place -= PART; showPart(); });
  byId('later-part').addEventListener('click', () => { place += PART; showPart(); });

  // ---- light and size

  function legend() {
    document.querySelectorAll('canvas[data-mark]').forEach((canvas) => {
      const ratio = window.devicePixelRatio || 1, pen = canvas.getContext('2d');
      canvas.width = 34 * ratio; canvas.height = 18 * ratio;
      pen.setTransform(ratio, 0, 0, ratio, 0, 0);
      const kind = canvas.dataset.mark;
      if (kind === 'turn') { pen.fillStyle = colour.turn; pen.fillRect(2, 4, 30, 11); }
      if (kind === 'gap') { pen.fillStyle = colour.soft; for (let x = 2; x < 32; x += 6) pen.fillRect(x, 9, 3, 1); }
      if (kind === 'call') {
        pen.strokeStyle = colour.call; pen.fillStyle = colour.panel; pen.fillRect(2, 2, 30, 14);
        pen.beginPath(); pen.moveTo(32, 2.5); pen.lineTo(2.5, 2.5); pen.lineTo(2.5, 15.5); pen.lineTo(32, 15.5); pen.stroke();
        pen.setLineDash([2, 3]); pen.beginPath(); pen.moveTo(31.5, 2); pen.lineTo(31.5, 16); pen.stroke();
      }
      if (kind === 'rescue') {
        pen.fillStyle = hatch(pen); pen.fillRect(3, 3, 28, 13); pen.strokeStyle = colour.rescue;
        pen.lineWidth = 2; pen.strokeRect(3, 3, 28, 13);
        pen.lineWidth = 4; pen.strokeStyle = colour.paper;
        for (let round = 0; round < 2; round++) {
          pen.beginPath(); pen.moveTo(13, 5); pen.lineTo(21, 13); pen.moveTo(21, 5); pen.lineTo(13, 13); pen.stroke();
          pen.lineWidth = 2; pen.strokeStyle = colour.rescue;
        }
      }
      if (WAYS.includes(kind)) device(pen, 16, 4, 1 << WAYS.indexOf(kind), 0);
      if (kind === 'end') { pen.fillStyle = colour.ink; pen.fillRect(16, 0, 2, 18); pen.fillRect(13, 5, 8, 9); }
    });
  }
  function renew() { readColours(); density = null; legend(); later(); }
  byId('theme').addEventListener('click', () => {
    const root = document.documentElement, system = matchMedia('(prefers-color-scheme: dark)').matches;
    const dark = root.dataset.theme ? root.dataset.theme === 'dark' : system;
    root.dataset.theme = dark ? 'light' : 'dark';
    renew();
  });
  matchMedia('(prefers-color-scheme: dark)').addEventListener('change', renew);
  window.addEventListener('resize', later);
  renew();
  showPart();
  reading.textContent = rescues.start.length ? 'Press n for the first rescue, or point at the picture.'
    : 'Point at the picture to read what happens there.';
  document.documentElement.dataset.ready = 'yes';
})();
