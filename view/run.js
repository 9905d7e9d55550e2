'use strict';

// The run that is shown, and after how many of its entries.

const shown = { run: null, line: '', step: 0, layout: null };

function showStep(step) {
  const { run, layout } = shown;
  shown.step = Math.min(run.order.length, Math.max(0, step));
  const entry = run.order[shown.step - 1];
  byId('count').textContent = `After ${shown.step} of ${run.order.length} entries`;
  byId('sentence').textContent = entry ? `${entry.text}: ${sentenceOf(run, entry)}` : 'Before the first entry: memory as it was at the start.';
  fill(byId('words'), ...wordItems(run, entry));
  for (const button of queryAll('[data-move]')) {
    button.disabled = ['first', 'back'].includes(button.dataset.move) ? shown.step === 0 : shown.step === run.order.length;
  }
  markStep(layout, entry);
}

function wordItems(run, entry) {
  const words = [...memoryAfter(run, shown.step)];
  const items = words.map(([location, word]) => {
    const isChanged = entry !== undefined && isWrite(entry) && entry.location === location;
    return html('li', isChanged ? 'word changed' : 'word', `${location}=${word ?? '?'}`);
  });
  const isUntold = words.some(([, word]) => word === undefined);
  return isUntold ? [...items, html('li', {}, '?: no read returned this initial value, so the line doesn\'t tell it')] : items;
}

function markStep(layout, entry) {
  const picture = byId('frame').firstChild;
  const y = layout.top(shown.step);
  setAll(picture.querySelector('.unseen'), { y, height: layout.height - y });
  setAll(picture.querySelector('.cursor'), { y1: y, y2: y });
  setAll(picture.querySelector('.band'), { y: layout.top(shown.step - 1), visibility: entry ? 'visible' : 'hidden' });
  for (const arrow of picture.querySelectorAll('[data-to]')) putClass(arrow, 'now', Number(arrow.dataset.to) === entry?.index);
}

function redraw() {
  if (drive.isOn) {
    makePicture();
    showPicture();
    return keepInSight();
  }
  shown.layout = layoutOf(shown.run, byId('run').clientWidth);
  fill(byId('frame'), drawPicture(shown.run, shown.layout));
  fill(byId('lanes'), drawNames(shown.run, shown.layout));
  showStep(shown.step);
  placeNames();
}

/** Keeps the lanes' names in sight: above the picture, where the picture's own are behind what stands still. */
function placeNames() {
  if (drive.isOn) return placeDriven();
  const { top, bottom } = boxOf(byId('frame')), edge = boxOf(byId('stepper')).bottom;
  putClass(byId('lanes'), 'needed', top < edge - HEAD && bottom > edge);
  byId('lanes').scrollLeft = byId('frame').scrollLeft;
}

function showRun(run, line) {
  putDriving(false);
  Object.assign(shown, { run, line, step: run.order.length });
  byId('name').textContent = `Test ${run.test}`;
  byId('machine').textContent = machineSentence(run);
  byId('verdict').textContent = verdictSentence(run);
  putItems(byId('passes'), passesOf(run.order));
  fill(byId('left'), ...finalTables(run));
  byId('order-part').open = true;
  showOrder();
  byId('comparison').hidden = true;
  byId('at-end').hidden = false;
  byId('address').href = '#' + encodeURIComponent(line);
  byId('address').hidden = byId('run').hidden = false;
  redraw();
}

function hideRun() {
  shown.run = null;
  endDrive();
  byId('address').hidden = byId('run').hidden = byId('no-steps').hidden = true;
  putMessage('');
}

function show(text) {
  hideRun();
  if (text.trim() === '') return;
  try {
    const read = readLine(text);
    if (read.unfinished) putMessage(unfinishedSentence(read.unfinished));
    else showRun(read, text.trim());
  } catch (fault) {
    if (!(fault instanceof Refusal)) throw fault;
    putMessage(fault.message);
  }
}

function showText(text) {
  byId('line').value = text;
  show(text);
}

const MOVES = { first: () => 0, back: () => shown.step - 1, forward: () => shown.step + 1, last: () => shown.run.order.length };
const KEYS = { Home: 'first', ArrowLeft: 'back', ArrowRight: 'forward', End: 'last' };

function move(name) {
  if (drive.isOn) return moveDriven(name);
  showStep(MOVES[name]());
  ROOT.style.scrollPadding = `${byId('stepper').offsetHeight + 2 * ROW}px 0 ${2 * ROW}px`; // below what stands still
  byId('frame').querySelector(`[data-entry="${shown.step - 1}"]`)?.scrollIntoView({ block: 'nearest', inline: 'nearest' });
}
