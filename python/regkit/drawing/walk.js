// Lets a reader walk through the pictures of a page: stretch the time, look at one operation, take an order
// step by step, and search. All that is added is made by this script, so that the page is whole without it.

const MOST_SCALE = 40;
const DRAG = 4; // pixels that a pointer may move in a click
const NEAREST = 3; // operations that are named of those before, after and beside one
const THINGS = '.bar[data-line], .old'; // what can be looked at one by one

const known = JSON.parse(document.getElementById('known').textContent);
const operations = new Map(known.operations.map(operation => [operation.line, operation]));
const isCalm = matchMedia('(prefers-reduced-motion: reduce)');

const counted = number => number.toLocaleString('en');
const capital = words => words.charAt(0).toUpperCase() + words.slice(1);
const lineOf = thing => (thing.dataset.line === undefined ? null : Number(thing.dataset.line));
const operationOf = thing => operations.get(lineOf(thing));
const within = (number, least, most) => Math.min(Math.max(number, least), most);

/** An element of the page. Children are elements, or text that can't be taken for markup. */
function make(kind, properties = {}, ...children) {
  const element = Object.assign(document.createElement(kind), properties);
  element.append(...children);
  return element;
}

function button(words, act, title = '') {
  const made = make('button', {type: 'button', title}, words);
  made.addEventListener('click', act);
  return made;
}

// ---- How the parts of a picture move. Each mover takes a function from places as drawn to places as shown.

const numberIn = (element, name) => Number(element.getAttribute(name));
const tenth = number => Math.round(number * 10) / 10;

/** A path as its words, with the places of those that are x coordinates. Relative steps keep their size. */
function readPath(path) {
  const words = path.getAttribute('d').match(/[a-z]|-?[\d.]+/gi) ?? [];
  const places = [];
  let command = '';
  let turn = 0;
  words.forEach((word, place) => {
    if (/[a-z]/i.test(word)) {
      command = word;
      turn = 0;
      return;
    }
    if (command === 'H' || ('MLQ'.includes(command) && turn % 2 === 0)) places.push(place);
    turn += 1;
  });
  return {path, words, places, drawn: places.map(place => Number(words[place]))};
}

function writePath({path, words, places}, numbers) {
  places.forEach((place, index) => { words[place] = tenth(numbers[index]); });
  path.setAttribute('d', words.join(' '));
}

/** A path whose points move one by one. */
function pointsMover(path) {
  const read = readPath(path);
  return at => writePath(read, read.drawn.map(at));
}

/** A path from one moment to another, whose ends keep their shape. */
function spanMover(path, [left, right]) {
  const read = readPath(path);
  const isLeft = read.drawn.map(x => x - left < right - x);
  return at => writePath(read, read.drawn.map(
    (x, index) => (isLeft[index] ? at(left) + x - left : at(right) + x - right)));
}

function rectMover(rect) {
  const left = numberIn(rect, 'x');
  const right = left + numberIn(rect, 'width');
  return at => {
    rect.setAttribute('x', tenth(at(left)));
    rect.setAttribute('width', tenth(Math.max(at(right) - at(left), 1)));
  };
}

/** Something that keeps its form, and stands at one moment. */
function standingMover(element, x) {
  return at => element.setAttribute('transform', `translate(${tenth(at(x) - x)} 0)`);
}

/** Where something stands that keeps its form. */
function standOf(element) {
  if (element.dataset.x !== undefined) return Number(element.dataset.x);
  if (element.tagName === 'path') return readPath(element).drawn[0];
  return numberIn(element, element.tagName === 'circle' ? 'cx' : 'x');
}

function endsOf(bar) {
  const face = bar.querySelector('.face');
  const drawn = readPath(bar.querySelector('.edge')).drawn;
  if (face) drawn.push(numberIn(face, 'x'), numberIn(face, 'x') + numberIn(face, 'width'));
  return [Math.min(...drawn), Math.max(...drawn)];
}

/** A bar. What is written in it stays in sight as long as the bar has room for it. */
function barMovers(bar, from) {
  const [left, right] = endsOf(bar);
  const inside = [...bar.children].filter(part => !part.matches('.edge, .face, .bolt, title'));
  const width = Math.max(0, ...inside.map(part => part.getBBox()).map(box => box.x + box.width - left)) + 4;
  const content = at => {
    const start = at(left);
    const hidden = within(from - start, 0, Math.max(at(right) - start - width, 0));
    inside.forEach(part => part.setAttribute('transform', `translate(${tenth(start + hidden - left)} 0)`));
  };
  return [content, spanMover(bar.querySelector('.edge'), [left, right]),
    ...[...bar.querySelectorAll('.face')].map(rectMover),
    ...[...bar.querySelectorAll('.bolt')].map(bolt => standingMover(bolt, standOf(bolt)))];
}

function zoneMovers(zone) {
  const band = zone.querySelector('rect');
  const left = numberIn(band, 'x');
  return [rectMover(band), spanMover(zone.querySelector('path'), [left, left + numberIn(band, 'width')])];
}

function gapMovers(gap) {
  const paths = [...gap.querySelectorAll('path')];
  const {drawn} = readPath(paths[0]);
  return paths.map(path => spanMover(path, [Math.min(...drawn), Math.max(...drawn)]));
}

/** All that moves in a part of a picture. */
function moversOf(part, from) {
  if (part.matches('.gutter, title')) return [];
  if (part.matches('.bar')) return barMovers(part, from);
  if (part.matches('.zone')) return zoneMovers(part);
  if (part.matches('.gap')) return gapMovers(part);
  if (part.matches('.badge')) return [standingMover(part, standOf(part.querySelector('circle')))];
  if (part.matches('text, circle, .point, .bolt, [data-x]')) return [standingMover(part, standOf(part))];
  if (part.matches('rect')) return [rectMover(part)];
  if (part.matches('path')) return [pointsMover(part)];
  const movers = [...part.children].flatMap(child => moversOf(child, from));
  if (!part.matches('.ruler')) return movers;
  return movers.map(move => at => move(x => at(x + from) - from)); // its places count from the axis on
}

// ---- Pictures

/** A picture, whose time can be stretched and moved if it has a time axis. */
class Picture {
  constructor(svg) {
    this.svg = svg;
    this.hasTime = svg.dataset.from !== undefined;
    this.from = Number(svg.dataset.from);
    this.to = Number(svg.dataset.to);
    ({width: this.width, height: this.height} = svg.viewBox.baseVal);
    this.scale = 1;
    this.shown = this.to - this.from; // of the axis
    this.shift = 0; // how much of what is drawn lies before what is shown
    this.movers = null;
    this.things = [...svg.querySelectorAll(THINGS)];
    this.prepare();
  }

  /** Makes things reachable by keys. Only one of them has a place among what Tab goes through. */
  prepare() {
    if (this.things.length === 0) return;
    this.svg.setAttribute('role', 'group');
    this.things.forEach((thing, index) => {
      thing.setAttribute('role', 'button');
      thing.setAttribute('tabindex', index === 0 ? '0' : '-1');
    });
  }

  make(kind, attributes) {
    const element = document.createElementNS(this.svg.namespaceURI, kind);
    Object.entries(attributes).forEach(([name, value]) => element.setAttribute(name, value));
    return element;
  }

  /** Puts what moves into a group of its own, which is cut off where the labels at the left begin. */
  gather() {
    const {height} = this;
    const parts = [...this.svg.children].filter(part => !part.matches('.gutter, .rule, .overview'));
    const place = [...document.querySelectorAll('svg')].indexOf(this.svg);
    const clip = this.make('clipPath', {id: `clip-${place}`});
    clip.append(this.make('rect', {x: this.from, y: 0, width: this.to - this.from, height}));
    this.clipped = `url(#${clip.id})`;
    this.window = clip.firstChild;
    this.rules = [...this.svg.querySelectorAll('.rule')].map(readPath);
    this.movers = parts.flatMap(part => moversOf(part, this.from));
    this.ends = new Map(this.things.filter(thing => thing.matches('.bar')).map(bar => [bar, endsOf(bar)]));
    this.shade = this.make('rect', {class: 'meanwhile', y: 0, height});
    this.time = this.make('g', {});
    this.time.append(this.shade, ...parts);
    this.svg.append(clip, this.time);
  }

  at(x) {
    return this.from + (x - this.from - this.shift) * this.scale;
  }

  /** Shows a part of the time, as far as there is one. */
  show(scale, shift) {
    if (!this.hasTime) return;
    if (this.movers === null) this.gather();
    this.scale = within(scale, 1, MOST_SCALE);
    this.shown = this.shownAt(this.scale);
    this.shift = within(shift, 0, this.to - this.from - this.shown / this.scale);
    this.widen();
    this.movers.forEach(move => move(x => this.at(x)));
    this.placeShade();
    if (this.scale === 1) this.time.removeAttribute('clip-path');
    else this.time.setAttribute('clip-path', this.clipped);
    this.svg.classList.toggle('stretched', this.scale > 1);
  }

  /** How much of a picture its axis takes. A narrow picture grows first, as far as the page has room. */
  shownAt(scale) {
    const drawn = this.to - this.from;
    const room = this.svg.parentElement.clientWidth - (this.width - drawn);
    return Math.min(drawn * scale, Math.max(drawn, room));
  }

  widen() {
    const width = this.width - (this.to - this.from) + this.shown;
    this.svg.setAttribute('width', width);
    this.svg.setAttribute('viewBox', `0 0 ${width} ${this.height}`);
    this.window.setAttribute('width', this.shown);
    this.rules.forEach(rule => writePath(rule, [this.from, this.from + this.shown]));
  }

  /** Stretches the time around a place of the picture; without one, around the middle. */
  stretch(factor, place = this.from + this.shown / 2) {
    const scale = within(this.scale * factor, 1, MOST_SCALE);
    const drawn = (place - this.from) / this.scale + this.shift;
    this.show(scale, drawn - (place - this.from) / scale);
  }

  move(distance) {
    this.show(this.scale, this.shift + distance / this.scale);
  }

  /** Moves by most of what is shown, back or on. */
  turn(direction) {
    this.move(direction * this.shown * 0.7);
  }

  /** Shades the time in which an operation was open, behind all else. */
  choose(thing) {
    if (!this.hasTime) return;
    if (this.movers === null) this.gather();
    this.chosen = this.ends.get(thing);
    this.placeShade();
  }

  forget() {
    this.chosen = undefined;
    if (this.movers !== null) this.placeShade();
  }

  get isInSight() {
    const {top, bottom} = this.svg.getBoundingClientRect();
    return bottom > 0 && top < innerHeight;
  }

  placeShade() {
    const [left, right] = (this.chosen ?? [this.from, this.from]).map(x => this.at(x));
    this.shade.setAttribute('x', left);
    this.shade.setAttribute('width', right - left);
  }

  focus(thing) {
    this.things.forEach(each => each.setAttribute('tabindex', each === thing ? '0' : '-1'));
    this.reach(thing);
    thing.focus({preventScroll: true});
    thing.scrollIntoView({block: 'nearest', inline: 'nearest', behavior: isCalm.matches ? 'auto' : 'smooth'});
  }

  /** Moves the time if an operation lies beyond what is shown. */
  reach(thing) {
    const ends = this.ends?.get(thing);
    if (this.scale === 1 || ends === undefined) return;
    const [left, right] = ends.map(x => this.at(x));
    const end = this.from + this.shown;
    if (right < this.from + 20 || left > end - 20) this.move((left + right - this.from - end) / 2);
  }

  /** A place on the screen as one of the picture. */
  placeOf(clientX) {
    const box = this.svg.getBoundingClientRect();
    return ((clientX - box.left) / box.width) * this.svg.viewBox.baseVal.width;
  }
}

// ---- What is said of an operation

/** `write of 5 (lines 3 to 6)` */
const inShort = operation => `${operation.name} (${operation.lines})`;

/** The operations of a picture by when they were open: before one, after it, or meanwhile. */
function neighbours(picture, operation) {
  const drawn = picture.things.map(operationOf).filter(each => each && each !== operation && !each.failed);
  const end = operation.end ?? Infinity;
  const before = drawn.filter(each => (each.end ?? Infinity) < operation.line);
  const after = drawn.filter(each => each.line > end);
  const beside = drawn.filter(each => !before.includes(each) && !after.includes(each));
  return [
    ['Ended before it began', before.sort((one, other) => other.end - one.end)],
    ['Began after it ended', after.sort((one, other) => one.line - other.line)],
    ['Open at the same time', beside]];
}

function factsOf(operation) {
  return [
    ['Lines', operation.lines.replace(/^lines? /, '')],
    ['Process', String(operation.process)],
    ['Client', operation.client],
    ['Node', operation.node],
    ['Time', operation.time],
  ].filter(([, said]) => said !== undefined);
}

const entry = (name, ...said) => make('div', {}, make('dt', {}, name), make('dd', {}, ...said));

/** Some operations as buttons that go to them. */
function links(found, go) {
  if (found.length === 0) return ['none in this picture'];
  const shown = found.slice(0, NEAREST).map(each => button(inShort(each), () => go(each)));
  const rest = found.length - shown.length;
  return rest === 0 ? shown : [...shown, `and ${counted(rest)} more in this picture`];
}

// ---- Orders

/** The order whose operations a picture shows, if there is one. */
function orderOf(picture) {
  if ('across' in picture.svg.dataset) return undefined; // an order is of one register
  const lines = new Set(picture.things.map(lineOf));
  return known.orders.find(order => order.steps.some(([line]) => lines.has(line)));
}

/** What has happened after some steps of an order. */
function stepOf({steps: all, first, last, of}, steps) {
  const count = `${counted(steps)} of ${counted(all.length)}`;
  if (steps === 0) return `${count}: nothing here has taken effect; the register holds ${first}.`;
  const [line, holds, place] = all[steps - 1];
  if (steps < all.length) {
    const number = of > all.length ? `, number ${counted(place)} of ${counted(of)},` : '';
    const what = `the ${inShort(operations.get(line))}${number}`;
    return `${count}: ${what} takes effect; then the register holds ${holds}.`;
  }
  const drawn = of > all.length ? ` operations drawn here, of ${counted(of)},` : ' operations';
  const end = last || 'Move the slider to see them one by one.';
  return `All ${counted(all.length)}${drawn} have taken effect; the register holds ${holds}. ${end}`;
}

// ---- What the reader does with all of this

/** The bar with all tools, and what they do to the pictures. */
class Walk {
  constructor(pictures) {
    this.pictures = pictures;
    this.found = [];
    this.place = 0; // among those found
    this.told = make('div', {className: 'told-of', hidden: true});
    this.told.setAttribute('aria-live', 'polite');
    this.build();
    this.pictures.forEach(picture => this.listen(picture));
    this.turnTo(pictures.find(orderOf) ?? pictures.find(picture => picture.hasTime) ?? pictures[0]);
  }

  build() {
    const bar = make('div', {className: 'walk'}, this.told, this.orderTools(),
      make('div', {className: 'tools'}, this.searchTools(), this.timeTools()));
    bar.setAttribute('role', 'region');
    bar.setAttribute('aria-label', 'Walk through the pictures');
    bar.addEventListener('keydown', event => { if (event.key === 'Escape') this.forget(); });
    document.body.append(bar);
    ['scroll', 'pointerdown', 'keydown'].forEach(
      name => addEventListener(name, () => this.begin(), {once: true, passive: true}));
  }

  /** Keeps the bar in sight. Until the reader does something it stands at the end, and covers nothing. */
  begin() {
    document.body.classList.add('walking');
  }

  searchTools() {
    this.query = make('input', {type: 'search', placeholder: 'value, client or node', size: 20});
    this.count = make('output', {});
    this.query.addEventListener('input', () => this.search());
    this.query.addEventListener('keydown', event => {
      if (event.key === 'Enter') this.goFound(event.shiftKey ? -1 : 1);
    });
    this.ways = [button('Previous', () => this.goFound(-1)), button('Next', () => this.goFound(1))];
    const label = make('label', {}, 'Find ', this.query);
    return make('div', {className: 'group'}, label, this.count, ...this.ways);
  }

  timeTools() {
    const act = done => () => {
      this.turnTo(this.pictureInSight());
      done(this.current);
    };
    this.zoom = [
      button('Zoom in', act(picture => picture.stretch(1.5)), 'Ctrl and the wheel; + on an operation'),
      button('Zoom out', act(picture => picture.stretch(1 / 1.5)), 'Ctrl and the wheel; - on an operation'),
      button('Earlier', act(picture => picture.turn(-1)), 'drag the picture; Shift and an arrow key'),
      button('Later', act(picture => picture.turn(1)), 'drag the picture; Shift and an arrow key'),
      button('Whole', act(picture => picture.show(1, 0)), '0 on an operation')];
    this.zoom.forEach(each => each.addEventListener('click', () => this.refresh()));
    this.which = make('span', {className: 'which'});
    return make('div', {className: 'group'}, this.which, ...this.zoom);
  }

  orderTools() {
    this.slider = make('input', {type: 'range', min: 0, step: 1});
    this.step = make('output', {});
    this.orderName = make('span', {});
    this.slider.addEventListener('input', () => this.takeEffect(Number(this.slider.value)));
    this.orderGroup = make('div', {className: 'group order', hidden: true},
      make('label', {}, this.orderName, ' ', this.slider), this.step);
    return this.orderGroup;
  }

  /** Lets the bar act on a picture. */
  turnTo(picture) {
    this.current = picture;
    const marked = this.pictures.length > 1;
    this.pictures.forEach(
      each => each.svg.parentElement.classList.toggle('current', marked && each === picture));
    this.which.textContent = marked
      ? `Picture ${this.pictures.indexOf(picture) + 1} of ${this.pictures.length}` : '';
    this.turnToOrder(picture);
    this.refresh();
  }

  pictureInSight() {
    if (this.current.isInSight) return this.current;
    return this.pictures.find(picture => picture.hasTime && picture.isInSight) ?? this.current;
  }

  refresh() {
    const {hasTime, scale} = this.current;
    const [nearer, farther, ...others] = this.zoom;
    nearer.disabled = !hasTime || scale >= MOST_SCALE;
    [farther, ...others].forEach(each => { each.disabled = !hasTime || scale === 1; });
    this.ways.forEach(way => { way.disabled = this.found.length === 0; });
  }

  // -- Orders

  turnToOrder(picture) {
    const order = orderOf(picture);
    this.orderGroup.hidden = order === undefined;
    if (order === this.order) return;
    this.clearOrder();
    this.order = order;
    if (order === undefined) return;
    this.orderName.textContent = order.name;
    this.slider.max = order.steps.length;
    this.slider.value = order.steps.length;
    this.tellStep(order.steps.length);
  }

  clearOrder() {
    document.querySelectorAll('.waits, .now').forEach(part => part.classList.remove('waits', 'now'));
    document.body.classList.remove('stepping');
  }

  /** Shows which operations have taken effect after some steps of the order. */
  takeEffect(steps) {
    this.clearOrder();
    const isWhole = steps === this.order.steps.length;
    document.body.classList.toggle('stepping', !isWhole);
    const places = new Map(this.order.steps.map(([line], index) => [line, index + 1]));
    for (const part of isWhole ? [] : this.partsOfOrder(places)) {
      const place = places.get(lineOf(part));
      part.classList.toggle('waits', place === undefined || place > steps);
      part.classList.toggle('now', place === steps);
    }
    this.tellStep(steps);
  }

  /** The bars and points of all pictures of the order. */
  partsOfOrder(places) {
    const isOfOrder = picture => picture.things.some(thing => places.has(lineOf(thing)));
    return this.pictures.filter(picture => orderOf(picture) !== undefined && isOfOrder(picture))
      .flatMap(picture => [...picture.svg.querySelectorAll('[data-line]')]);
  }

  tellStep(steps) {
    const said = stepOf(this.order, steps);
    this.step.textContent = said;
    this.slider.setAttribute('aria-valuetext', said);
  }

  // -- Search

  search() {
    const sought = this.query.value.trim().toLowerCase();
    const isFound = operation => operation !== undefined && matches(operation, sought);
    const bars = this.pictures.flatMap(picture => picture.things.map(thing => ({picture, thing})));
    this.found = sought === '' ? [] : bars.filter(({thing}) => isFound(operationOf(thing)));
    this.place = -1;
    const lines = new Set(this.found.map(({thing}) => lineOf(thing)));
    document.body.classList.toggle('searching', this.found.length > 0);
    bars.forEach(({thing}) => thing.classList.toggle('found', lines.has(lineOf(thing))));
    this.count.textContent = sought === '' ? '' : `${counted(lines.size)} found in the pictures`;
    this.refresh();
  }

  goFound(direction) {
    const {length} = this.found;
    if (length === 0) return;
    this.place = this.place < 0 && direction < 0 ? length - 1 : (this.place + direction + length) % length;
    const {picture, thing} = this.found[this.place];
    const focused = document.activeElement;
    this.choose(picture, thing);
    focused.focus({preventScroll: true}); // so that Enter goes on to the next one
  }

  // -- One thing

  choose(picture, thing) {
    this.begin();
    this.forget();
    this.turnTo(picture);
    const operation = operationOf(thing);
    document.querySelectorAll(`[data-line="${operation?.line}"].bar`).forEach(
      each => each.classList.add('chosen'));
    picture.choose(thing);
    picture.focus(thing);
    this.told.replaceChildren(...(operation ? this.accountOf(picture, operation) : [
      make('p', {}, thing.querySelector('title').textContent), this.closing()]));
    this.told.hidden = false;
  }

  closing() {
    return button('Close', () => this.forget(), 'Escape');
  }

  accountOf(picture, operation) {
    const go = other => this.choose(picture, picture.things.find(thing => operationOf(thing) === other));
    const facts = factsOf(operation).map(([name, said]) => entry(name, said));
    const others = operation.failed ? [] : neighbours(picture, operation).map(
      ([name, found]) => entry(name, ...links(found, go)));
    const notes = operation.failed ? [make('p', {}, 'It failed: it certainly had no effect.')] : [];
    return [make('p', {className: 'chosen-name'}, capital(operation.name)), this.closing(),
      make('dl', {}, ...facts), ...notes, make('dl', {}, ...others)];
  }

  forget() {
    this.told.hidden = true;
    document.querySelectorAll('.chosen').forEach(each => each.classList.remove('chosen'));
    this.pictures.forEach(picture => picture.forget());
  }

  // -- What a pointer and keys do in a picture

  listen(picture) {
    const {svg} = picture;
    svg.addEventListener('keydown', event => this.press(picture, event));
    svg.addEventListener('focusin', () => this.turnTo(picture));
    svg.addEventListener('wheel', event => this.roll(picture, event), {passive: false});
    this.listenToDrags(picture);
    svg.addEventListener('click', event => {
      const thing = event.target.closest(THINGS);
      if (this.dragged) return;
      if (thing) this.choose(picture, thing);
      else this.turnTo(picture);
    });
  }

  listenToDrags(picture) {
    const {svg} = picture;
    let last = null;
    svg.addEventListener('pointerdown', event => {
      this.dragged = false;
      last = event.isPrimary && event.button === 0 ? event.clientX : null;
    });
    svg.addEventListener('pointermove', event => {
      if (last === null || (!this.dragged && Math.abs(event.clientX - last) < DRAG)) return;
      if (!this.dragged) svg.setPointerCapture(event.pointerId);
      this.dragged = true;
      picture.move(picture.placeOf(last) - picture.placeOf(event.clientX));
      last = event.clientX;
    });
    ['pointerup', 'pointercancel'].forEach(name => svg.addEventListener(name, () => { last = null; }));
  }

  roll(picture, event) {
    const isAcross = event.shiftKey || Math.abs(event.deltaX) > Math.abs(event.deltaY);
    if (!picture.hasTime) return;
    if (event.ctrlKey || event.metaKey) {
      picture.stretch(Math.exp(-event.deltaY / 300), picture.placeOf(event.clientX));
    } else if (isAcross && picture.scale > 1) {
      picture.move(event.deltaX || event.deltaY);
    } else {
      return; // the page moves
    }
    event.preventDefault();
    this.turnTo(picture);
  }

  press(picture, event) {
    const thing = event.target.closest(THINGS);
    const place = picture.things.indexOf(thing);
    const go = next => picture.focus(picture.things[within(next, 0, picture.things.length - 1)]);
    const turn = event.shiftKey ? distance => picture.turn(distance / 2) : distance => go(place + distance);
    const acts = {
      ArrowRight: () => turn(1),
      ArrowLeft: () => turn(-1),
      Home: () => go(0),
      End: () => go(picture.things.length - 1),
      Enter: () => this.choose(picture, thing),
      ' ': () => this.choose(picture, thing),
      Escape: () => this.forget(),
      '+': () => picture.stretch(1.5),
      '=': () => picture.stretch(1.5),
      '-': () => picture.stretch(1 / 1.5),
      0: () => picture.show(1, 0),
    };
    const act = event.ctrlKey || event.metaKey || event.altKey ? undefined : acts[event.key];
    if (act === undefined || place < 0) return;
    event.preventDefault();
    act();
    this.refresh();
  }
}

/** Whether an operation has a value, or is of a client, a node, a process or a line. */
function matches(operation, sought) {
  const {values, client = '', node = '', process, line, end} = operation;
  return values.some(value => value.toLowerCase() === sought)
    || [client, node].some(name => name.toLowerCase().includes(sought))
    || [`p${process}`, `process ${process}`, `line ${line}`, `line ${end}`].includes(sought);
}

const drawn = [...document.querySelectorAll('figure > svg')].map(svg => new Picture(svg));
const walked = drawn.filter(picture => picture.hasTime || picture.things.length > 0);
if (walked.length > 0) new Walk(walked);
