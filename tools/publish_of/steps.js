// Steps through the positions of a game. Without it the page shows the last position, and all of them below.
'use strict';

const shown = document.querySelector('#shown');
const board = shown.querySelector('svg');
const figures = [...document.querySelectorAll('.figures figure')];
const links = [...document.querySelectorAll('.moves a')];
const steps = document.querySelector('#steps');
const last = figures.length - 1;
const targets = { first: () => 0, back: () => ply - 1, on: () => ply + 1, last: () => last };
const keys = { ArrowLeft: 'back', ArrowRight: 'on' };
let ply = last;

function show(wanted) {
  ply = Math.min(Math.max(wanted, 0), last);
  board.querySelector('use').setAttribute('href', `#diagram-${ply}`);
  board.setAttribute('aria-label', figures[ply].querySelector('svg').getAttribute('aria-label'));
  shown.querySelector('figcaption').textContent = figures[ply].querySelector('figcaption').textContent;
  for (const it of steps.children) it.disabled = ply === ('first back'.includes(it.value) ? 0 : last);
  links.forEach((it, at) => {
    if (at + 1 === ply) it.setAttribute('aria-current', 'step');
    else it.removeAttribute('aria-current');
  });
  const current = links[ply - 1];
  const list = current?.closest('.moves');
  if (list) list.scrollTop = current.offsetTop - list.clientHeight / 2;
}

function plyOf(address) {
  const found = /#ply-(\d+)$/.exec(address);
  return found && Number(found[1]);
}

steps.addEventListener('click', (event) => {
  const button = event.target.closest('button');
  if (button) show(targets[button.value]());
});
for (const it of links) {
  it.addEventListener('click', (event) => {
    event.preventDefault();
    show(plyOf(it.href));
  });
}
document.addEventListener('keydown', (event) => {
  if (event.altKey || event.ctrlKey || event.metaKey || event.shiftKey || !keys[event.key]) return;
  event.preventDefault();
  show(targets[keys[event.key]]());
});
steps.hidden = false;
document.querySelector('#positions').open = false;
show(plyOf(location.href) ?? last);
if (location.hash) scrollTo(0, 0);
