'use strict';

// Files: the input, the report, the line, and the picture.

/** Hands a file over to the one who looks at the page. */
function saveFile(name, blob) {
  const address = URL.createObjectURL(blob);
  html('a', { href: address, download: name }).click();
  setTimeout(() => URL.revokeObjectURL(address), 10000);
}

/** A test's name as that of a file. */
function fileName(name, ending) {
  const plain = name.replace(/[^A-Za-z0-9+_]+/g, '-').replace(/^-+|-+$/g, '').slice(0, 60);
  return (plain === '' ? 'test' : plain) + ending;
}

/** Saves a file, and says so, with `more` about it. */
function saveAndSay(name, blob, more = '') {
  saveFile(name, blob);
  sayDone('.page-saved, #report-copied', `Saved as ${name}, where your browser puts downloads.${more}`);
}

const saveText = (name, text, type = 'text/plain', more = '') => saveAndSay(name, new Blob([text], { type }), more);

/** What a drawing takes from the page's style, and has to bring with it. */
const STYLED = ['fill', 'stroke', 'stroke-width', 'stroke-dasharray', 'paint-order', 'opacity', 'font-family', 'font-weight', 'font-size', 'text-anchor'];
const OF_THE_SCREEN = '.unseen, .cursor, .band';

/** The picture that is shown: its parts, the lowest first, and its measures. Of a run that isn't over it has what came, with the lanes' names. */
function pictureNow() {
  if (drive.isOn) return { parts: drawn.picture.parts, label: drawn.picture.label, y: 0, width: drawn.picture.layout.width, height: drawn.picture.bottom };
  const picture = byId('frame').firstChild, { y, width, height } = picture.viewBox.baseVal;
  return { parts: [...picture.children], label: picture.getAttribute('aria-label'), y, width, height };
}

/** Does what saves the picture of a cycle while all its edges are drawn alike, wherever one stands in it. */
function withWholeCycle(act) {
  const { cycle } = sheet, shownNow = cycle?.shown;
  if (!cycle?.element.isConnected) return act();
  cycle.show(cycle.last);
  cycle.point(document.body);
  cycle.picture.querySelectorAll('.now').forEach(edge => edge.classList.remove('now'));
  act();
  return cycle.show(shownNow);
}

/** What the sheet of `why` draws: a cycle, or an execution. */
function pictureOfReason() {
  const figure = query('#states .reason figure'), [picture] = figure.children, { width, height } = picture.viewBox.baseVal;
  return { parts: [...picture.children], label: figure.getAttribute('aria-label'), y: 0, width, height };
}

/** A copy of something that is drawn, with its style in its attributes. */
function styledCopy(drawn) {
  const copy = drawn.cloneNode(true), [shownParts, parts] = [drawn, copy].map(root => [root, ...root.querySelectorAll('*')]);
  shownParts.forEach((part, at) => {
    const style = getComputedStyle(part);
    for (const name of STYLED) parts[at].setAttribute(name, style.getPropertyValue(name));
  });
  return copy;
}

/** A text of which each character may stand in XML: one that may not, as a name can have, is shown as one that isn't known. */
const inXml = text => text.replace(/[^\t\n\r\u{20}-\u{d7ff}\u{e000}-\u{fffd}\u{10000}-\u{10ffff}]/gu, '\ufffd');

/** What an act makes while the page has its light colours, where saved pictures are to be light whatever is preferred. */
function inColoursOfSaved(act) {
  putClass(ROOT, 'light', byId('saved-colours').value === 'light');
  try {
    return act();
  } finally {
    ROOT.classList.remove('light');
  }
}

/** The picture alone, as a text that needs no style. */
const savedPicture = picture => inColoursOfSaved(() => styledPicture(picture));

function styledPicture({ parts, label, y, width, height }) {
  const kept = parts.filter(part => !part.matches(OF_THE_SCREEN));
  const ground = svg('rect', { y, width, height, fill: getComputedStyle(byId('stepper')).backgroundColor });
  const picture = svg('svg', { class: 'picture', width, height, viewBox: `0 ${y} ${width} ${height}`, role: 'img', 'aria-label': label },
    svg('defs', {}, styledCopy(byId('point'))), ground, ...kept.map(styledCopy));
  return '<?xml version="1.0" encoding="UTF-8"?>\n' + inXml(new XMLSerializer().serializeToString(picture)) + '\n';
}

/** The picture in points, at twice its size. */
async function pictureInPoints(picture) {
  const address = URL.createObjectURL(new Blob([savedPicture(picture)], { type: 'image/svg+xml' }));
  const image = new Image();
  try {
    await new Promise((done, failed) => {
      image.onload = done;
      image.onerror = () => failed(new Error('the picture can\'t be drawn as points'));
      image.src = address;
    });
    const canvas = html('canvas', { width: 2 * image.width, height: 2 * image.height });
    canvas.getContext('2d').drawImage(image, 0, 0, canvas.width, canvas.height);
    return await new Promise(done => canvas.toBlob(done, 'image/png'));
  } finally {
    URL.revokeObjectURL(address);
  }
}

/** The name of the file that has the input of a command. */
const inputName = command => fileName(testName(), readsOrder(command) ? '.order' : '.litmus');

function saveInput() {
  const command = currentCommand();
  saveText(inputName(command), inputOf(command));
}

const pictureName = () => (isOfTest() ? testName() : shown.run?.test ?? 'page');

/** The trace of the choices that are made, as it is printed or as JSON. */
function traceNow(json = false) {
  return asked({ ...firstHistory().options, command: 'trace', json }, inputOfWords(drive.words.slice(0, drive.count))).text;
}

async function savePoints(name, picture) {
  try {
    saveAndSay(fileName(name, '.png'), await pictureInPoints(picture));
  } catch (fault) {
    putMessage(`The picture isn't saved: ${fault.message}.`);
  }
}

const saveReason = save => withWholeCycle(() => save(`${testName()}-why`, pictureOfReason()));

const saveDrawn = (name, picture) => saveText(fileName(name, '.svg'), savedPicture(picture), 'image/svg+xml');

const SAVES = {
  input: saveInput,
  report: async () => {
    await showReport();
    saveFormat();
  },
  trace: () => saveText(fileName(testName(), '.trace.txt'), traceNow()),
  'trace-json': () => saveText(fileName(testName(), '.trace.json'), traceNow(true), 'application/json'),
  line: () => saveText(fileName(shown.run.test, '.json'), shown.line + '\n', 'application/json'),
  svg: () => saveDrawn(pictureName(), pictureNow()),
  png: () => savePoints(pictureName(), pictureNow()),
  'reason-svg': () => saveReason(saveDrawn),
  'reason-png': () => saveReason(savePoints),
};
