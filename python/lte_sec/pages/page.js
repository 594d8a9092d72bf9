'use strict';
// The script of the pages that --html writes. All that it shows is in the element `document`; it loads nothing and computes nothing of security.
// Texts become text nodes and values of attributes alone.
(() => {
  const page = JSON.parse(document.getElementById('document').textContent);
  const SVG = 'http://www.w3.org/2000/svg';
  const ROW = 44, SPARE = 6, GUTTER = 74, NEAREST = 96, MANY = 200, AROUND = 3, PRINTED = 3000, PAPER = 680, FEW = 20, OCTETS = 4, STEPS = 12;
  const WORDS = { ok: 'right', bad: 'differs', unk: 'not judged', none: 'without a verdict' };
  const marks = page.marks || [], lanes = page.lanes || [], events = page.events || [], keys = page.keys || [], isMatrix = page.page === 'matrix';
  const words = Object.fromEntries(marks.map(it => [it.v, it.word || WORDS[it.v]])), glyphs = Object.fromEntries(marks.map(it => [it.v, it.glyph]));
  const narrow = () => window.innerWidth < 760;
  const whole = text => text.toWellFormed ? text.toWellFormed() : text;

  // Elements

  function put(it, given, children) {
    for (const [name, value] of Object.entries(given || {})) {
      if (name === 'on') for (const [event, does] of Object.entries(value)) it.addEventListener(event, does);
      else if (value !== null && value !== undefined && value !== false) it.setAttribute(name, whole(String(value)));
    }
    it.append(...children.flat(Infinity).filter(child => child !== null && child !== undefined && child !== false));
    return it;
  }
  const make = (name, given, ...children) => put(document.createElement(name), given, children);
  const draw = (name, given, ...children) => put(document.createElementNS(SVG, name), given, children);
  const button = (text, does, given) => make('button', { type: 'button', ...given, on: { click: does } }, text);
  const fact = (name, value) => [undefined, null, '', false].includes(value) ? [] : [make('dt', {}, name), make('dd', {}, value)], code = text => make('code', {}, text);
  const count = (number, one, many) => `${number.toLocaleString('en')} ${number === 1 ? one : many}`;

  // The view, which is the fragment of the address

  const start = () => ({ f: '', v: '', p: '', k: '', q: '', all: '' }), places = new Map(), named = (isMatrix ? page.variants.map(it => it.id) : events.map(it => it.f)).map(whole);
  named.forEach((name, place) => places.has(name) || places.set(name, place));
  let view = start(), hovered = '';

  const known = {
    f: text => places.has(text), v: text => (isMatrix ? page.outcomes.map(it => it.id) : marks.map(it => it.v)).includes(text), q: () => true, all: text => text === '1',
    p: text => (page.phones || []).some(it => String(it.number) === text), k: text => /^\d{1,7}$/.test(text) && Number(text) < keys.length,
  };
  function read() {
    const given = new URLSearchParams(location.hash.slice(1)), found = start();
    for (const name of Object.keys(found)) if (given.has(name) && known[name](given.get(name))) found[name] = given.get(name);
    return found;
  }
  function fragment() {
    const given = new URLSearchParams();
    for (const [name, value] of Object.entries(view)) if (value) given.set(name, whole(value));
    return '#' + given.toString();
  }
  function go(change) {
    view = { ...view, ...change };
    try { history.replaceState(null, '', fragment()); } catch { /* a browser may refuse this for files */ }
    show();
  }
  function copy() {
    const link = location.href.split('#')[0] + fragment();
    const area = make('textarea', {}, link);
    const old = () => { document.body.append(area); area.select(); document.execCommand('copy'); area.remove(); };
    if (navigator.clipboard) navigator.clipboard.writeText(link).catch(old); else old();
    say('The link is copied.');
  }

  // Keys: what comes of each, and which events have it

  const below = keys.map(() => []);
  keys.forEach((key, number) => key.from !== null && key.from !== undefined && below[key.from].push(number));
  const spoils = new Map();
  function derived(number) {
    if (!spoils.has(number)) {
      const found = new Set(), rest = [...below[number]], at = new Set();
      while (rest.length) {
        const one = rest.pop();
        if (found.has(one)) continue;
        found.add(one);
        keys[one].at.forEach(place => at.add(place));
        for (const under of below[one]) rest.push(under);
      }
      spoils.set(number, { keys: found, at });
    }
    return spoils.get(number);
  }
  const marked = () => hovered !== '' ? hovered : view.k, hover = number => { hovered = number; shade(); };
  function tint(it, isOf, isUnder) {
    it.classList.toggle('marked', isOf);
    it.classList.toggle('derived', isUnder && !isOf);
  }
  function shade() {
    const name = marked(), number = Number(name), has = name !== '', at = new Set(has ? keys[number].at : []), under = has ? derived(number) : null;
    if (chart) for (const [place, row] of chart.drawn) tint(row, at.has(place), has && under.at.has(place));
    for (const it of panel.querySelectorAll('.key')) tint(it, has && Number(it.dataset.key) === number, has && under.keys.has(Number(it.dataset.key)));
  }

  // What is sought

  const texts = [];
  const laneName = place => place === undefined ? '' : lanes[place].name;
  const phoneName = number => ((page.phones || []).find(it => it.number === number) || {}).name || '';
  function textOf(place) {
    if (texts[place] === undefined) {
      const it = events[place], said = [it.f, it.m, it.s, laneName(it.a), laneName(it.b), phoneName(it.p), it.from, it.to, it.answer, it.opens];
      for (const line of it.l || []) said.push(line.text, line.is, line.wanted, line.name, line.hex, line.whex, line.plain, line.why, line.clause, line.kasme);
      texts[place] = said.filter(Boolean).join(' ').toLowerCase();
    }
    return texts[place];
  }
  function seeker(query) {
    const parts = query.toLowerCase().split(/\s+/).filter(Boolean).map(word => {
      const at = new Set();
      if (/^[0-9a-f]{8,}$/.test(word)) for (const key of keys) if (key.hex.includes(word)) for (const place of key.at) at.add(place);
      return { word, at };
    });
    return place => parts.every(({ word, at }) => at.has(place) || textOf(place).includes(word));
  }

  // The list of events: rows that are in sight alone

  function across(width, used) {
    const left = GUTTER + 56, right = width - 56, step = used.length > 1 ? (right - left) / (used.length - 1) : 0;
    return { list: used.length > 1 && step < NEAREST, at: new Map(used.map((lane, place) => [lane, used.length > 1 ? left + step * place : (left + right) / 2])), width };
  }
  const fits = (text, width) => text.length * 6.9 <= width ? text : text.slice(0, Math.max(3, Math.floor(width / 6.9) - 1)) + '…';
  function word(text, x, y, given, geometry) {
    const room = geometry.width - GUTTER - 8, shown = fits(text, room), half = shown.length * 3.5;
    const middle = Math.min(Math.max(x, GUTTER + 4 + half), Math.max(GUTTER + 4 + half, geometry.width - 6 - half));
    return draw('text', { x: middle - GUTTER, y, 'text-anchor': 'middle', ...given }, shown);
  }
  function arrow(from, to, y, look) {
    const way = to > from ? 1 : -1, tip = draw('path', { class: `tip ${look}`, d: `M${to - GUTTER},${y} l${-9 * way},-5 v10 z` });
    return [draw('line', { class: `arrow ${look}`, x1: from - GUTTER, x2: to - GUTTER - 6 * way, y1: y, y2: y }), tip];
  }
  function strokes(it, geometry) {
    const from = geometry.at.get(it.a), to = geometry.at.get(it.b), parts = [], y = 24;
    for (const x of geometry.at.values()) parts.push(draw('line', { class: 'life', x1: x - GUTTER, x2: x - GUTTER, y1: 0, y2: ROW }));
    const middle = from === undefined ? to : to === undefined ? from : (from + to) / 2;
    if (from !== undefined && to !== undefined && from !== to) {
      parts.push(...arrow(from, to, y, it.v));
      const phone = geometry.at.get(0), station = it.nas === 'up' ? from : to;
      if (it.nas && phone !== undefined && station !== phone) parts.push(...(it.nas === 'up' ? arrow(phone, station, y, 'onward') : arrow(station, phone, y, 'onward')));
      if (it.v === 'bad') parts.push(draw('path', { class: 'arrow bad', d: `M${middle - GUTTER - 6},${y - 6} l12,12 m0,-12 l-12,12` }));
    } else if (middle !== undefined) parts.push(draw('circle', { class: `spot ${it.v}`, cx: middle - GUTTER, cy: y, r: 4.5 }));
    if (it.and !== undefined && geometry.at.has(it.and)) parts.push(draw('circle', { class: `spot ${it.v}`, cx: geometry.at.get(it.and) - GUTTER, cy: y, r: 4.5 }));
    if (middle !== undefined && it.lost) parts.push(...arrow(middle, middle + 46 * (middle + 60 > geometry.width ? -1 : 1), y, 'none'));
    parts.push(word(it.m, middle === undefined ? geometry.width / 2 : middle, 13, {}, geometry));
    if (it.s) parts.push(word(it.s, middle === undefined ? geometry.width / 2 : middle, 40, { class: `small ${it.v}` }, geometry));
    return parts;
  }
  const ends = it => it.a === undefined && it.b === undefined ? '' : it.a === it.b || it.b === undefined ? laneName(it.a) : it.a === undefined ? laneName(it.b) : `${laneName(it.a)} → ${laneName(it.b)}`;
  const spoken = (it, unit) => `${unit} ${it.f}, ${it.m}, ${ends(it)}: ${words[it.v]}${it.s ? ', ' + it.s : ''}${it.w ? ', with a warning' : ''}`;
  function row(it, geometry, given, unit) {
    const frame = make('span', { class: 'frame' }, make('span', { class: `glyph ${it.v}` }, glyphs[it.v]), ` ${it.f}`, it.w ? make('span', { class: 'unk' }, ' !') : null,
      make('span', { class: 'when' }, it.t === undefined ? it.note || '' : `${it.t.toFixed(3)} s`));
    const body = geometry.list ? make('span', { class: 'two' }, make('span', {}, it.m), make('span', { class: it.v }, [ends(it), it.s].filter(Boolean).join(' · ')))
      : draw('svg', { 'aria-hidden': 'true' }, strokes(it, geometry));
    return make('div', { class: 'row', role: 'option', 'aria-label': spoken(it, unit), ...given }, frame, body);
  }

  class Chart {
    constructor() {
      [this.drawn, this.opened, this.rows] = [new Map(), new Set(), []];
      this.top = make('div', { id: 'lanes', 'aria-hidden': 'true' });
      this.space = make('div', { id: 'space', role: 'presentation' });
      this.list = make('div', { id: 'list', role: 'listbox', tabindex: 0, 'aria-label': `${page.unit}s`, on: { scroll: () => this.draw() } }, this.space);
      this.strip = make('div', { id: 'strip', 'aria-hidden': 'true', title: `${page.unit}s that differ or are not judged` });
      new ResizeObserver(() => this.lay()).observe(this.list);
    }
    // The rows that the filters leave; where there are many, what is right or without a verdict is folded away from what is of note.
    choose() {
      const sought = view.q.trim() ? seeker(view.q) : null, isLeft = (it, place) => (!view.v || it.v === view.v) && (!view.p || String(it.p) === view.p) && (!sought || sought(place));
      const found = [...events.keys()].filter(place => isLeft(events[place], place));
      const isOfNote = place => ['bad', 'unk'].includes(events[place].v) || events[place].w;
      const isFolded = !view.all && !view.v && !sought && found.length > MANY && found.some(isOfNote);
      this.rows = isFolded ? this.fold(found, isOfNote) : found.map(place => ({ place }));
      this.index = new Map();
      this.rows.forEach((it, at) => it.place !== undefined && this.index.set(it.place, at));
      this.found = found.length;
    }
    fold(found, isOfNote) {
      const near = new Set(), rows = [];
      found.forEach((place, at) => { if (isOfNote(place)) for (let each = at - AROUND; each <= at + AROUND; each++) near.add(each); });
      for (let at = 0; at < found.length; at++) {
        if (near.has(at)) { rows.push({ place: found[at] }); continue; }
        let end = at;
        while (end < found.length && !near.has(end)) end++;
        if (this.opened.has(found[at]) || end - at === 1) for (let each = at; each < end; each++) rows.push({ place: found[each] });
        else rows.push({ fold: found[at], many: end - at });
        at = end - 1;
      }
      return rows;
    }
    show() {
      if (named[this.at] !== view.f) this.at = places.get(view.f);
      this.choose();
      this.cursor = this.index.get(this.at);
      this.lay();
    }
    // Draws the rows in sight, or for paper so many of so wide a chart.
    lay(width = this.list.clientWidth, many = 0) {
      const used = new Set(view.p || view.v || view.q ? [] : lanes.keys());
      for (const it of this.rows) if (it.place !== undefined) for (const lane of [events[it.place].a, events[it.place].b, events[it.place].nas && 0]) if (typeof lane === 'number') used.add(lane);
      this.geometry = across(width, [...used].sort((one, other) => one - other));
      this.space.style.height = `${(many ? Math.min(many, this.rows.length) : this.rows.length) * ROW}px`;
      this.space.replaceChildren();
      this.drawn.clear();
      this.top.replaceChildren(this.heads());
      if (many) this.draw(0, many); else this.draw();
      this.mark();
    }
    heads() {
      const given = this.geometry, room = given.at.size > 1 ? (given.width - GUTTER) / given.at.size : given.width;
      const names = given.list ? [draw('text', { class: 'small', x: 10, y: 18 }, `${page.unit}, then message and ends`)]
        : [...given.at].map(([lane, x]) => draw('text', { class: 'lane', x, y: 18, 'text-anchor': 'middle' }, fits(laneName(lane), room)));
      return draw('svg', { width: given.width, height: 28 }, names);
    }
    draw(first = Math.floor(this.list.scrollTop / ROW) - SPARE, last = Math.ceil((this.list.scrollTop + this.list.clientHeight) / ROW) + SPARE) {
      const wanted = new Set(), number = marked() === '' ? null : Number(marked());
      const at = number === null ? null : new Set(keys[number].at), under = number === null ? null : derived(number).at;
      for (let each = Math.max(0, first); each < Math.min(this.rows.length, last); each++) {
        const it = this.rows[each], name = it.fold === undefined ? it.place : `fold ${it.fold}`;
        wanted.add(name);
        if (this.drawn.has(name)) continue;
        const drawn = it.fold === undefined ? this.event(it.place, each) : this.folded(it, each);
        drawn.style.top = `${each * ROW}px`;
        if (at && it.place !== undefined) tint(drawn, at.has(it.place), under.has(it.place));
        this.drawn.set(name, drawn);
        this.space.append(drawn);
      }
      for (const [name, drawn] of this.drawn) if (!wanted.has(name)) { drawn.remove(); this.drawn.delete(name); }
    }
    event(place, each) {
      const isChosen = this.at === place;
      const drawn = row(events[place], this.geometry, { id: `row${each}`, 'aria-posinset': each + 1, 'aria-setsize': this.rows.length, 'aria-selected': isChosen, on: { click: () => this.pick(place) } }, page.unit);
      drawn.classList.toggle('chosen', isChosen);
      return drawn;
    }
    folded(it, each) {
      const said = `${count(it.many, page.unit, `${page.unit}s`)} with nothing of note: open`;
      return make('div', { class: 'row fold', role: 'option', id: `row${each}`, 'aria-posinset': each + 1, 'aria-setsize': this.rows.length, 'aria-selected': this.cursor === each,
        on: { click: () => { this.opened.add(it.fold); this.show(); this.see(each); } } }, `⋯ ${said}`);
    }
    pick(place) {
      this.at = place;
      go({ f: named[place] });
      this.see(this.index.get(place));
    }
    // Brings a row into sight, and tells which one it is.
    see(each) {
      if (each === undefined) return;
      this.cursor = each;
      const top = each * ROW, list = this.list;
      if (top < list.scrollTop + ROW) list.scrollTop = top - ROW;
      else if (top + 2 * ROW > list.scrollTop + list.clientHeight) list.scrollTop = top + 2 * ROW - list.clientHeight;
      this.draw();
      for (const it of this.space.querySelectorAll('.row.fold')) it.classList.toggle('chosen', it.id === `row${each}`);
      list.setAttribute('aria-activedescendant', `row${each}`);
    }
    move(by) {
      const each = Math.min(Math.max((this.cursor ?? (by > 0 ? -1 : 1)) + by, 0), this.rows.length - 1), it = this.rows[each];
      if (!it) return;
      if (it.place !== undefined) this.pick(it.place); else this.see(each);
    }
    enter() {
      const it = this.rows[this.cursor];
      if (it && it.fold !== undefined) { this.opened.add(it.fold); this.show(); this.see(this.cursor); } else if (it && !panel.hidden) panel.focus();
    }
    next(by) {
      let each = (this.cursor ?? (by > 0 ? -1 : this.rows.length)) + by;
      while (this.rows[each] && !(this.rows[each].place !== undefined && ['bad', 'unk'].includes(events[this.rows[each].place].v))) each += by;
      if (this.rows[each]) this.pick(this.rows[each].place); else say(by > 0 ? 'There is no later one that differs.' : 'There is no earlier one that differs.');
    }
    mark() {
      const height = this.strip.clientHeight, at = new Map();
      this.rows.forEach((it, each) => {
        const look = it.place === undefined ? '' : events[it.place].v, y = Math.floor(each * height / this.rows.length / 3) * 3;
        if (look === 'bad' || look === 'unk' && !at.has(y)) at.set(y, { look, each });
      });
      const of = each => () => this.pick(this.rows[each].place);
      this.strip.replaceChildren(draw('svg', { width: 14, height }, [...at].map(([y, { look, each }]) => draw('rect', { class: `spot ${look}`, x: 2, y, width: 10, height: 3, on: { click: of(each) } }))));
    }
  }

  // The panel: what is known of the event that is chosen

  const panel = make('aside', { id: 'panel', tabindex: -1, 'aria-label': 'details', hidden: true });
  const short = hex => hex.length > 24 ? `${hex.slice(0, 8)}..${hex.slice(-8)}` : hex;
  const titleOf = number => `${keys[number].name}${keys[number].form && keys[number].form !== 'kasme' ? ` ${keys[number].form}` : ''}`;
  function keyOf(number, isFirst) {
    const key = keys[number], inputs = Object.entries(key.in || {}).map(([name, value]) => `${name} ${value}`).join(', '), more = [key.by, inputs, key.who].filter(Boolean).join('; ');
    const it = make('button', { type: 'button', class: `key${isFirst ? ' differs' : ''}`, 'data-key': number, title: key.hex, 'aria-pressed': view.k === String(number) }, titleOf(number),
      isFirst ? make('small', { class: 'bad' }, 'the first step that differs') : null, more ? make('small', {}, more) : null, make('small', { class: 'mono' }, page.keyed ? short(key.hex) : `fingerprint ${key.hex}`));
    it.addEventListener('click', () => go({ k: view.k === String(number) ? '' : String(number) }));
    for (const [event, value] of [['mouseenter', String(number)], ['focus', String(number)], ['mouseleave', ''], ['blur', '']]) it.addEventListener(event, () => hover(value));
    return it;
  }
  function above(number) {
    const found = [];
    for (let at = number; at !== null && at !== undefined; at = keys[at].from) found.unshift(at);
    return found;
  }
  function chain(title, number, beside) {
    const all = above(number), others = beside === undefined ? null : new Set(above(beside)), first = others ? all.find(it => !others.has(it)) : undefined;
    const head = all.length > STEPS ? all.slice(0, 2) : all, tail = all.length > STEPS ? all.slice(2 - STEPS) : [];
    const left = tail.length ? make('p', { class: 'dim' }, `${count(all.length - head.length - tail.length, 'key', 'keys')} between`) : null;
    return make('div', { class: 'chain' }, make('h3', {}, title), head.map(it => keyOf(it, it === first)), left, tail.map(it => keyOf(it, it === first)));
  }
  function chains(line) {
    const { isk, wantk } = line;
    const [here, there] = line.names || ['as it is', 'as it was wanted'];
    if (isk !== undefined && wantk !== undefined && isk !== wantk) return make('div', { class: 'chains' }, chain(here, isk, wantk), chain(there, wantk, isk));
    const one = isk ?? wantk ?? line.chain;
    return one === undefined ? null : chain(line.chain === undefined ? 'its chain' : 'the key of the MAC', one);
  }
  // Octets are compared only where few differ: two outputs of HMAC differ everywhere.
  function octets(hex, other) {
    const pairs = hex.match(/../g) || [], others = (other || '').match(/../g) || [], at = pairs.map((it, place) => it !== others[place]);
    if (!other || pairs.length !== others.length || hex === other || at.filter(Boolean).length > OCTETS) return code(hex);
    return make('code', {}, pairs.map((it, place) => at[place] ? make('mark', {}, it) : it));
  }
  const pair = (line, one, other, name) => [...fact(name, line[one]), ...(line[other] !== undefined && line[other] !== line[one] ? fact(`${name} wanted`, line[other]) : [])];
  function lineOf(line) {
    const has = line.wanted !== undefined && line.wanted !== line.is || line.v === 'bad', isHex = line.hex && line.hex !== line.is;
    const nas = [line.ksi !== undefined && `KSI ${line.ksi}`, line.eea !== undefined && `EEA${line.eea}`, line.eia !== undefined && `EIA${line.eia}`].filter(Boolean).join(', ');
    return make('div', { class: 'line' }, make('p', {}, make('span', { class: `glyph ${line.v}` }, `${glyphs[line.v]} ${line.what || 'note'} ${line.what ? words[line.v] : ''}`)),
      make('p', {}, line.text), make('dl', { class: 'facts' }, fact('is', line.is && code(line.is)), has ? fact('wanted', line.wanted && code(line.wanted)) : [],
        isHex ? fact('octets', octets(line.hex, line.whex)) : [], isHex && line.whex !== line.hex ? fact('octets wanted', line.whex && octets(line.whex, line.hex)) : [],
        pair(line, 'ncc', 'wncc', 'NCC'), fact('COUNT', line.count), fact('NAS message', line.name), fact('direction', line.way), fact('header type', line.header), fact('context', nas),
        fact('cell', line.cell && `PCI ${line.cell[0]}, EARFCN-DL ${line.cell[1]}`), fact('KASME', line.kasme), fact('plain text', line.plain && code(line.plain)), fact('reason', line.why),
        fact('clause', line.clause)), chains(line));
  }
  function detail(place) {
    const it = events[place];
    const where = make('dl', { class: 'facts' }, fact('verdict', make('span', { class: `glyph ${it.v}` }, `${glyphs[it.v]} ${words[it.v]}`)), fact('ends', ends(it)), fact('addresses', it.from && `${it.from} to ${it.to}`),
      fact('link', it.link), fact('phone', phoneName(it.p)), fact('connection', it.c), fact('handover', it.h), fact('answer', it.answer), fact('record', it.record), fact('sends', it.sends), fact('opens to', it.opens),
      fact('NCC', it.ncc), fact('key came by', it.way), fact('note', it.remark));
    const of = (it.l || []).map(lineOf), key = it.key === undefined ? null : chain('its key', it.key);
    return [make('h2', {}, `${page.unit} ${it.f} ${it.m}`), where, of, of.length ? null : key, page.page === 'run' && keys.length ? ladder() : null];
  }
  const ladder = () => [make('h3', {}, `the ladder: ${count(keys.length, 'key', 'keys')}, with who has held each`), make('div', { class: 'ladder' }, keys.slice(0, MANY).map((key, number) => keyOf(number)))];
  function fill(children) {
    panel.replaceChildren(button('✕', () => go({ f: '' }), { class: 'close', 'aria-label': 'close the details' }), ...children.flat(Infinity).filter(Boolean));
    panel.hidden = false;
  }

  // The matrix: a box for each variant

  function cell(outcome) {
    const it = make('span', { class: 'box', 'aria-hidden': 'true' }, outcome.letter);
    [it.style.backgroundColor, it.style.color] = [outcome.colour, outcome.ink];
    return it;
  }
  class Matrix {
    constructor() {
      this.drawn = new Map();
      this.boxes = page.variants.map((it, place) => {
        const box = cell(page.outcomes[it.o[0][0]]);
        box.removeAttribute('aria-hidden');
        put(box, { role: 'option', id: `box${place}`, 'aria-label': `${this.named(it)}: ${it.o.map(one => page.outcomes[one[0]].word).join(', ')}`, on: { click: () => this.pick(place) } }, []);
        return box;
      });
      this.list = make('div', { id: 'matrix', role: 'listbox', tabindex: 0, 'aria-label': 'variants' }, this.table(), this.several());
    }
    named(it) {
      const message = page.messages.find(one => one.step === it.step);
      return `${message ? message.m : ''} (step ${it.step}) ${it.kind}${it.after === undefined ? '' : ` after step ${it.after}`}`;
    }
    table() {
      const at = new Map();
      page.variants.forEach((it, place) => at.set(`${it.step} ${it.kind}`, [...(at.get(`${it.step} ${it.kind}`) || []), this.boxes[place]]));
      const heads = make('tr', {}, ['step', 'message', ...page.kinds].map(name => make('th', { scope: 'col' }, name)));
      const lines = page.messages.map(one => make('tr', {}, make('td', { class: 'step' }, one.frame ? `${one.step} f${one.frame}` : one.step), make('th', { scope: 'row' }, one.m), page.kinds.map(kind => make('td', {}, at.get(`${one.step} ${kind}`) || []))));
      return make('table', { role: 'presentation' }, make('thead', {}, heads), make('tbody', {}, lines));
    }
    several() {
      return (page.together || []).map(group => make('details', {}, make('summary', {}, `${page.outcomes[group.o].word}: ${count(group.lines.length, 'combination', 'combinations')} of faults`), group.lines.slice(0, PRINTED).map(text => make('p', {}, text))));
    }
    isLeft(place) {
      const it = page.variants[place], said = [this.named(it), ...it.o.flatMap(([outcome, what, limit]) => [page.outcomes[outcome].word, page.texts[what], page.texts[limit]]), ...it.ans.map(one => page.texts[one])].join(' ').toLowerCase();
      return (!view.v || page.outcomes[it.o[0][0]].id === view.v) && view.q.toLowerCase().split(/\s+/).every(part => said.includes(part));
    }
    show() {
      this.at = places.get(view.f) ?? this.at;
      this.found = 0;
      this.boxes.forEach((box, place) => {
        const isLeft = this.isLeft(place);
        this.found += isLeft;
        box.classList.toggle('off', !isLeft);
        box.classList.toggle('at', place === this.at);
        box.setAttribute('aria-selected', named[place] === view.f);
      });
      if (this.at !== undefined) this.list.setAttribute('aria-activedescendant', `box${this.at}`);
    }
    pick(place) { go({ f: named[place] }); }
    see(place) {
      this.at = place;
      if (view.f) this.pick(place); else this.show();
      this.boxes[place].scrollIntoView({ block: 'nearest', inline: 'nearest' });
    }
    move(by) {
      const place = Math.min(Math.max((this.at ?? (by > 0 ? -1 : 1)) + by, 0), this.boxes.length - 1);
      if (this.boxes[place]) this.see(place);
    }
    // Up or down a message, to the nearest box there.
    climb(by) {
      const from = this.boxes[this.at ?? 0].getBoundingClientRect(), far = box => by * (box.getBoundingClientRect().top - from.top);
      const there = this.boxes.map((box, place) => ({ place, far: far(box), aside: Math.abs(box.getBoundingClientRect().left - from.left) })).filter(it => it.far > 5);
      there.sort((one, other) => one.far - other.far || one.aside - other.aside);
      if (there.length) this.see(there[0].place);
    }
    enter() { if (this.at !== undefined) this.pick(this.at); }
    next(by) {
      let place = (this.at ?? (by > 0 ? -1 : this.boxes.length)) + by;
      while (page.variants[place] && !(page.outcomes[page.variants[place].o[0][0]].isBad && this.isLeft(place))) place += by;
      if (this.boxes[place]) this.see(place); else say('There is no other one that is worse than goes on.');
    }
    detail(place) {
      const it = page.variants[place], worst = page.outcomes[it.o[0][0]];
      const outcomes = it.o.map(([outcome, what, limit]) => make('div', { class: 'line' }, make('p', {}, cell(page.outcomes[outcome]), ' ', make('b', {}, page.outcomes[outcome].word), page.texts[what] ? ` ${page.texts[what]}` : ''),
        limit === null ? null : make('p', { class: 'dim' }, `a limit of this profile, not of LTE: ${page.texts[limit]}`), make('p', { class: 'dim' }, page.outcomes[outcome].means)));
      const heals = it.heals === null ? null : make('p', {}, 'heals: ', make('b', {}, page.texts[it.heals]));
      const answers = it.ans.length ? [make('h3', {}, 'refused here and not in the scenario'), it.ans.map(one => make('p', {}, page.texts[one]))] : [];
      const steps = it.run.flatMap(one => Array.isArray(one) ? Array.from({ length: one[1] - one[0] + 1 }, (_, each) => ({ ...page.base[one[0] + each], v: 'none' })) : page.steps[one]);
      const geometry = across((narrow() ? window.innerWidth : Math.min(620, window.innerWidth * 0.55)) - 34, [...lanes.keys()]), room = make('div', { class: 'run', role: 'list', 'aria-label': 'the run of this variant' });
      room.append(...steps.map(step => put(row(step, geometry, { role: 'listitem' }, 'step'), {}, [])));
      const heads = geometry.list ? null : draw('svg', { width: geometry.width, height: 28 }, [...geometry.at].map(([lane, x]) => draw('text', { class: 'lane', x, y: 18, 'text-anchor': 'middle' }, laneName(lane))));
      const gone = it.gone.length ? make('p', { class: 'dim' }, `falls away: ${it.gone.map(one => page.texts[one]).join(', ')}`) : null;
      return [make('h2', {}, this.named(it)), make('p', {}, 'worst outcome: ', make('b', {}, worst.word)), heals, outcomes, answers, steps.length ? [make('h3', {}, 'its own run'), make('p', { class: 'dim' }, marks.map(mark => `${mark.glyph} ${mark.word}`).join('; ')), gone, heads, room] : null];
    }
  }

  // All together: filters, search and keys of the keyboard

  const chart = isMatrix ? null : new Chart(), main = isMatrix ? new Matrix() : chart;
  const status = make('p', { role: 'status', class: 'dim' }), say = text => { status.textContent = text; };
  const search = make('input', { type: 'search', 'aria-label': 'search', placeholder: 'search  /', on: { input: () => go({ q: search.value }) } });
  const phone = make('select', { 'aria-label': 'phone', on: { change: () => go({ p: phone.value }) } }, make('option', { value: '' }, 'all phones'),
    (page.phones || []).map(it => make('option', { value: it.number }, [it.name, it.kasmes.join(', '), it.tmsis.map(tmsi => `M-TMSI ${tmsi}`).join(', ')].filter(Boolean).join(' · '))));
  const all = button('all rows  a', () => go({ all: view.all ? '' : '1' })), kept = make('div', { class: 'bar', hidden: true });
  const filters = (isMatrix ? page.outcomes.filter(it => it.many).map(it => ({ v: it.id, text: [cell(it), ` ${count(it.many, 'variant', 'variants')} ${it.word}`] })) : marks.map(it => ({ v: it.v, many: events.filter(one => one.v === it.v).length, mark: it })).filter(it => it.many).map(it => ({ v: it.v, text: `${it.mark.glyph} ${count(it.many, it.mark.one, it.mark.many)}` })))
    .map(it => button(it.text, () => go({ v: view.v === it.v ? '' : it.v }), { class: isMatrix ? '' : it.v, 'data-v': it.v }));
  const verdicts = (page.verdicts || []).slice(0, AROUND + 1).map(it => button(`${glyphs[it.v]} ${it.text}`, () => chart.pick(places.get(it.f)), { class: `verdict ${it.v}` }));

  function keep() {
    const key = view.k === '' ? null : keys[Number(view.k)];
    kept.hidden = !key;
    if (!key) return;
    const at = key.at.slice(0, FEW).map(place => button(`${page.unit} ${events[place].f}`, () => chart.pick(place)));
    kept.replaceChildren(make('b', {}, titleOf(Number(view.k))), make('span', {}, `stands in ${count(key.at.length, page.unit, `${page.unit}s`)}, and ${count(derived(Number(view.k)).at.size, page.unit, `${page.unit}s`)} with keys that come of it are striped`), ...at,
      button('let it go', () => go({ k: '' })));
  }
  function show() {
    if (search.value !== view.q) search.value = view.q;
    phone.value = view.p;
    for (const it of filters) it.setAttribute('aria-pressed', it.dataset.v === view.v);
    all.setAttribute('aria-pressed', view.all === '1');
    keep();
    const hadFocus = panel.contains(document.activeElement) && document.activeElement.dataset.key, wasHidden = panel.hidden;
    const at = !isMatrix && named[chart.at] === view.f ? chart.at : places.get(view.f);
    if (at === undefined) panel.hidden = true; else fill(isMatrix ? main.detail(at) : detail(at));
    if (hadFocus) panel.querySelector(`[data-key="${Number(hadFocus)}"]`)?.focus();
    if (wasHidden && !panel.hidden) panel.scrollTop = 0;
    main.show();
    shade();
    say(view.q || view.v || view.p ? `${count(main.found, isMatrix ? 'variant' : page.unit, isMatrix ? 'variants' : `${page.unit}s`)} found.` : '');
  }
  function leave() {
    main.list.focus();
    go(view.f ? { f: '' } : view.k ? { k: '' } : { q: '', v: '', p: '' });
  }
  const screen = () => Math.max(1, Math.floor(main.list.clientHeight / ROW) - 1), far = 1e9, does = {
    '/': () => search.focus(), n: () => main.next(1), N: () => main.next(-1), a: () => isMatrix || go({ all: view.all ? '' : '1' }), Escape: leave, j: () => main.move(1), k: () => main.move(-1),
    ArrowDown: () => isMatrix ? main.climb(1) : main.move(1), ArrowUp: () => isMatrix ? main.climb(-1) : main.move(-1), ArrowRight: () => main.move(1), ArrowLeft: () => main.move(-1),
    PageDown: () => main.move(screen()), PageUp: () => main.move(-screen()), Home: () => main.move(-far), End: () => main.move(far), Enter: () => main.enter(),
  };
  function press(event) {
    const on = event.target.tagName, isMoving = /^(Arrow|Page|Home|End)/.test(event.key), isAside = !isMatrix && /^Arrow(Left|Right)$/.test(event.key);
    if (event.ctrlKey || event.altKey || event.metaKey || !Object.hasOwn(does, event.key) || isAside) return;
    if (['INPUT', 'SELECT'].includes(on) && event.key !== 'Escape' || ['BUTTON', 'SUMMARY'].includes(on) && event.key === 'Enter' || panel.contains(event.target) && isMoving) return;
    event.preventDefault();
    does[event.key]();
  }

  function begin() {
    document.getElementById('bar').append(...[filters, verdicts, search, (page.phones || []).length > 1 ? phone : null, isMatrix || events.length <= MANY ? null : all, button('copy the link', copy), status].flat().filter(Boolean));
    const left = isMatrix ? [main.list] : [make('div', { id: 'view' }, chart.top, chart.list), chart.strip], app = document.getElementById('app');
    panel.classList.toggle('wide', isMatrix);
    app.append(kept, make('main', {}, left, panel));
    app.hidden = false;
    document.addEventListener('keydown', press);
    const again = () => {
      view = read();
      show();
      if (view.f) main.see(isMatrix ? places.get(view.f) : chart.index.get(places.get(view.f)));
    };
    window.addEventListener('hashchange', again);
    window.addEventListener('beforeprint', () => chart && chart.lay(PAPER, PRINTED));
    window.addEventListener('afterprint', () => chart && chart.lay());
    again();
    main.list.focus({ preventScroll: true });
  }
  begin();
})();
