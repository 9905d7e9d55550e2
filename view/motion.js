'use strict';

// While a run is played: a store moves from its buffer to memory, a forwarded word from the buffer to the registers, and a request to the bus.

const MOVED = { part: 0.7, most: 700 }; // of the time between two choices, and milliseconds at most

/** From which part of a core a step moves something, to which part of the machine, and what; null where it moves nothing. */
function wayOfStep({ choice, outcome, entries, forwarded, transaction }) {
  const core = `.core[data-core='${coreOfChoice(choice)}']`, [first] = entries.map(entryOf);
  const isSeen = outcome === 'committed' && first?.kind === 'W';
  if (forwarded) return { from: `${core} .buffer .source`, to: `${core} .registers`, text: `${first.location}=${first.value}` };
  if (transaction && !byId('run').matches('.plain')) return { from: `${core} .cache`, to: '.bus', text: transaction };
  return isSeen ? { from: `${core} .buffer .slot`, to: '.memory .changed', text: `${first.location}=${first.value}` } : null;
}

/** Moves what the last choice moved, where that is wanted. */
function moveToken() {
  const step = firstHistory().steps[drive.count - 1], way = step && wayOfStep(step);
  if (!way || matchMedia('(prefers-reduced-motion: reduce)').matches) return;
  const [from, to] = [way.from, way.to].map(part => drawn.panels[0].element.querySelector(part)?.getBoundingClientRect());
  if (!from || !to) return;
  const token = html('div', { class: 'token word', 'aria-hidden': 'true' }, way.text), placed = ({ left, top }) => ({ transform: `translate(${left}px, ${top}px)` });
  document.body.append(token);
  const duration = Math.min(MOVED.most, MOVED.part * 1000 / SPEEDS[Number(byId('speed').value)]);
  token.animate([placed(from), placed(to)], { duration, easing: 'ease-in-out' }).finished.finally(() => token.remove());
}
