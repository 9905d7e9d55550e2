'use strict';

// What is printed: what was asked, and a long picture in pieces between which a page may end.

/** Whether what is shown is of the test that is written, and not a line that was made elsewhere. */
const isOfTest = () => bench.tso !== null && (drive.isOn || shown.run === null || byId('line').value === '');

function writeAsked() {
  const isAsked = isOfTest(), command = currentCommand();
  byId('paper').hidden = !isAsked;
  if (!isAsked) return;
  const made = drive.isOn ? drive.words.slice(0, drive.count).join(' ') : choicesText().trim();
  byId('paper-words').textContent = commandWords(command);
  byId('paper-test').textContent = command === 'tables' ? '' : testNow();
  byId('paper-rest').textContent = command === 'run' ? `Choices: ${made === '' ? 'none' : made}` : readsOrder(command) ? byId('given').value : '';
}

function drawForPaper() {
  writeAsked();
  if (drive.isOn) fill(byId('frame'), ...drawn.picture.onPaper());
  else if (shown.run?.order.length > PAPER.whole) fill(byId('frame'), ...drawPieces(shown.run, shown.layout));
}

on(window, 'beforeprint', drawForPaper);
on(window, 'afterprint', () => (shown.run || drive.isOn) && redraw());
