// What `picture_test` does on a page as its reader would. Each act gives what is wrong after it, as texts.
// The page runs this by the hash that its policy then has too; `asked` is the name of an act.

const wrong = [];
const check = (holds, what) => { if (!holds) wrong.push(what); };
const all = selector => [...document.querySelectorAll(selector)];
const one = selector => document.querySelector(selector);
const said = selector => (one(selector)?.hidden === false ? one(selector).textContent : '');
const press = words => all('.walk button').find(button => button.textContent === words).click();
const click = element => element.dispatchEvent(new MouseEvent('click', {bubbles: true}));
const key = (name, options = {}) => document.activeElement.dispatchEvent(
  new KeyboardEvent('keydown', {key: name, bubbles: true, cancelable: true, ...options}));
const type = (field, value) => {
  field.value = value;
  field.dispatchEvent(new Event('input', {bubbles: true}));
};
const middle = element => {
  const box = element.getBoundingClientRect();
  return {left: box.left, right: box.right, width: box.width, x: (box.left + box.right) / 2};
};
const bars = () => all('svg[data-from] .bar[data-line]');
const pointer = (svg, name, clientX) => svg.dispatchEvent(new PointerEvent(
  name, {bubbles: true, isPrimary: true, button: 0, pointerId: 1, clientX}));

const acts = {
  /** A click says what is known of an operation, and a button goes on to a neighbour. */
  click() {
    const bar = bars()[3];
    click(bar);
    const title = bar.querySelector('title').textContent.toLowerCase();
    const name = one('.chosen-name').textContent.toLowerCase();
    check(title.includes(name), `${title} isn't of ${name}`);
    check(document.activeElement === bar, 'the operation has no focus');
    check(all('.chosen').every(each => each.dataset.line === bar.dataset.line), 'another one is chosen');
    const words = ['Lines', 'Process', 'Ended before it began', 'Began after it ended',
      'Open at the same time'];
    words.forEach(word => check(said('.told-of').includes(word), `${word} isn't told`));
    check(all('.meanwhile').filter(shade => middle(shade).width > 5).length === 1, 'the time isn\'t shaded');
    const next = one('.told-of dd button');
    click(next);
    const chosen = one('.chosen-name').textContent.toLowerCase();
    check(next.textContent.startsWith(chosen), 'the button goes elsewhere');
  },

  /** Tab comes to a picture once; arrow keys go through its operations, and Enter opens one. */
  keys() {
    const places = all('svg[data-from] [tabindex="0"]');
    check(places.length === all('svg[data-from]').filter(svg => svg.querySelector('[role=button]')).length,
      `${places.length} places for Tab`);
    bars()[0].focus();
    key('ArrowRight');
    key('ArrowRight');
    check(document.activeElement === bars()[2], 'two steps to the right lead elsewhere');
    key('ArrowLeft');
    key('Enter');
    check(one('.chosen') === bars()[1], 'Enter opens another one');
    key('+');
    key('ArrowRight', {shiftKey: true});
    check(one('.stretched') !== null, '+ doesn\'t stretch');
    key('0');
    check(one('.stretched') === null, '0 doesn\'t show the whole');
    key('Escape');
    check(said('.told-of') === '' && one('.chosen') === null, 'Escape leaves it open');
  },

  /** The slider fades what hasn't taken effect. */
  slider() {
    const slider = one('input[type=range]');
    const output = () => one('.order output').textContent;
    check(!one('.order').hidden, 'there is no slider');
    check(all('.waits').length === 0, 'something waits before the slider moved');
    const most = Number(slider.max);
    for (const steps of [0, most - 1]) {
      type(slider, steps);
      const lines = new Set(all('.bar[data-line]:not(.waits)').map(bar => bar.dataset.line));
      lines.delete('0');
      check(lines.size === steps, `${lines.size} have taken effect after ${steps} steps`);
      check(output().startsWith(`${steps} of ${most}`), output());
    }
    type(slider, most);
    check(all('.waits, .now').length === 0, 'something waits at the end');
    check(output().startsWith('All '), output());
    type(slider, Math.ceil(most / 3));
    check(all('.now').length >= 1 && output().includes('the register holds'), output());
    one('.now').scrollIntoView({block: 'center'});
  },

  /** A search marks all that it finds, and goes through it. */
  search() {
    const field = one('input[type=search]');
    const value = bars()[0].textContent.match(/(?:null|\d+)/)[0];
    field.focus();
    type(field, value);
    const marked = all('.found');
    check(marked.length > 0, `${value} isn't found`);
    const ofValue = new RegExp(`(?:of|from|to|found) ${value}\\b`);
    const titles = marked.map(bar => bar.querySelector('title').textContent);
    check(titles.every(title => ofValue.test(title)), 'another value is found');
    const count = one('.tools output').textContent;
    check(count.endsWith('found in the pictures'), count);
    key('Enter');
    check(one('.chosen') === marked[0], 'Enter goes elsewhere');
    check(document.activeElement === field, 'the field lost the focus');
    type(field, 'nobody wrote this');
    check(all('.found').length === 0 && one('.searching') === null, 'something is found still');
    type(field, value);
  },

  /** Zooming keeps what is under the pointer, cuts nothing off at the left but time, and comes back. */
  zoom() {
    const svg = one('svg[data-from]:has(.bar)');
    const drawn = () => JSON.stringify([...svg.querySelectorAll('.edge, .arrow, .axis')].map(
      path => path.getAttribute('d')).sort());
    const before = drawn();
    const isWide = middle(svg).width > 1000; // a narrow picture grows first
    const bar = svg.querySelectorAll('.bar[data-line]')[2];
    const place = middle(bar).x;
    for (let turn = 0; turn < 4; turn += 1)
      svg.dispatchEvent(new WheelEvent('wheel', {deltaY: -100, ctrlKey: true, clientX: place, bubbles: true,
        cancelable: true}));
    const now = middle(bar);
    const box = middle(svg);
    check(now.right > box.left + 90 && now.left < box.right, 'what the pointer was at is gone');
    if (isWide) check(Math.abs(now.x - place) < 40, `the pointer was at ${place}, and is at ${now.x}`);
    const height = bar.querySelector('text')?.getBoundingClientRect().height;
    check(height === undefined || height < 30, 'letters are stretched');
    const here = middle(bar).x;
    pointer(svg, 'pointerdown', 600);
    pointer(svg, 'pointermove', 500);
    pointer(svg, 'pointerup', 500);
    check(middle(bar).x < here - 50, 'dragging doesn\'t move the time');
    check(one('.walk button:disabled') !== null, 'no button is off');
    press('Whole');
    const same = drawn().replace(/\.0\b/g, '') === before.replace(/\.0\b/g, '');
    check(same, 'the whole isn\'t as it was');
    press('Zoom in');
    press('Zoom in');
    press('Later');
  },

  /** A bar of the ages and of the time line says how many reads it counts. */
  bursts() {
    for (const bar of all('.old')) {
      click(bar);
      check(said('.told-of').startsWith(bar.querySelector('title').textContent), 'another bar is told');
    }
    const svg = all('svg[data-from]').find(each => each.querySelector('.old'));
    const width = middle(svg.querySelector('.old rect')).width;
    click(svg.querySelector('.old'));
    press('Zoom in');
    press('Zoom in');
    check(middle(svg.querySelector('.old rect')).width > 2 * width, 'the bars don\'t grow');
  },
};

addEventListener('load', () => {
  try {
    acts[asked]();
  } catch (error) {
    wrong.push(`${error}`);
  }
  const result = document.createElement('pre');
  result.id = 'found';
  result.hidden = true;
  result.textContent = JSON.stringify({wrong});
  document.body.append(result);
});
