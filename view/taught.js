'use strict';

// What a teacher brings along: lessons, and a list of tests, as a file of JSON that is dropped on the page, or in a page that was saved.

const MOST_TAUGHT = { lessons: 20, steps: 60, tests: 60, text: 2000 };
const LESSON_NAME = /^[a-z0-9-]{1,40}$/;

/** What was brought along beside what the page has itself: it is saved with the page. */
const taught = { lessons: [], list: [], name: '' };

const needTaught = (isSo, what) => need(isSo, `This isn't a file of lessons or of tests: ${what}.`);
const isTestText = value => typeof value === 'string' && BEGINS_TEST.test(value) && whyTooLong(value) === null;
const isText = value => typeof value === 'string' && value !== '' && value.length <= MOST_TAUGHT.text;

/** A step of a lesson, as it was read; what it has beside the known members is left out. */
function readLessonStep(step, where) {
  const { say, ask, answers, right, because, do: word, then, show: shows, look, test, title } = readTaughtObject(step, where);
  needTaught(isText(say) !== isText(ask), `${where} has to have either "say" or "ask", a text`);
  needTaught(look === undefined || look === 'picture', `${where} can have the reader "look" at the picture`);
  needTaught(test === undefined || isTestText(test), `${where} has a "test" that is none`);
  needTaught(title === undefined || (test !== undefined && isText(title)), `${where} has a "title" that is no text, or no "test" for it`);
  const also = { ...(look === undefined ? {} : { look }), ...(test === undefined ? {} : { test }), ...(title === undefined ? {} : { title }) };
  if (ask !== undefined) {
    needTaught(Array.isArray(answers) && answers.length >= 2 && answers.every(isText), `${where} has to have two "answers" or more`);
    needTaught((right === undefined || answers.includes(right)) && isText(because), `${where} has to say why ("because"), and "right" is one of the answers`);
    return { ask, answers, because, ...(right === undefined ? {} : { right }), ...also };
  }
  if (word !== undefined) {
    needTaught(/^[0-7][sd]$/.test(word) && isText(then), `${where} has to "do" one choice, as 0s, and tell what came of it ("then")`);
    return { do: word, say, then, ...also };
  }
  needTaught(shows === undefined || Object.hasOwn(LESSON_SHOWS, shows), `${where} can "show" ${eitherOf(Object.keys(LESSON_SHOWS))}`);
  return { say, ...(shows === undefined ? {} : { show: shows }), ...also };
}

function readTaughtObject(value, where) {
  needTaught(typeof value === 'object' && value !== null && !Array.isArray(value), `${where} isn't an object`);
  return value;
}

function readLesson(value, at) {
  const where = `lesson ${at + 1}`, { name, title, text, test, settings = {}, caches = false, steps } = readTaughtObject(value, where);
  needTaught(typeof name === 'string' && LESSON_NAME.test(name), `${where} needs a "name" of small letters, digits and -`);
  needTaught(isText(title), `${where} needs a "title"`);
  needTaught(textsHere().some(entry => entry.file === text) || isTestText(test), `${where} needs a "test", or the name of one of the page's texts ("text")`);
  needTaught(Array.isArray(steps) && steps.length >= 1 && steps.length <= MOST_TAUGHT.steps, `${where} needs 1 to ${MOST_TAUGHT.steps} "steps"`);
  const known = Object.entries(readTaughtObject(settings, where)).filter(([key]) => SET_NAMES.includes(key)).map(([key, set]) => [key, String(set)]);
  return { name, title, ...(test === undefined ? { text } : { test }), settings: Object.fromEntries(known), caches: caches === true, steps: steps.map((step, of) => readLessonStep(step, `step ${of + 1} of ${where}`)) };
}

/** A test of a list: its name, the address that opens it, whether without its reason. */
function readListed(value, at) {
  const where = `test ${at + 1}`, { name, address, noReason } = readTaughtObject(value, where);
  needTaught(isText(name) && typeof address === 'string' && TEST_ADDRESS.test(address) && address.length <= MOST_TEXT.bytes, `${where} needs a "name" and the "address" of a test`);
  return { name, address, noReason: noReason === true };
}

/** The lessons and the tests of a text of JSON. Throws a Refusal where it has none. */
function readTaught(text) {
  let value;
  try {
    value = JSON.parse(text);
  } catch {
    needTaught(false, 'it isn\'t JSON');
  }
  const { lessons = [], list = [], name } = readTaughtObject(value, 'the whole');
  needTaught(Array.isArray(lessons) && lessons.length <= MOST_TAUGHT.lessons && Array.isArray(list) && list.length <= MOST_TAUGHT.tests, '"lessons" and "list" are lists, and not longer');
  needTaught(lessons.length + list.length > 0, 'it has no lesson and no test');
  return { lessons: lessons.map(readLesson), list: list.map(readListed), name: isText(name) ? name : '' };
}

/** Takes lessons and tests in. Lessons of a name that is there take its place. */
function takeTaught({ lessons, list, name }) {
  for (const one of lessons) {
    for (const all of [LESSONS, taught.lessons]) {
      const at = all.findIndex(({ name }) => name === one.name);
      if (at < 0) all.push(one);
      else all[at] = one;
    }
  }
  if (list.length > 0) Object.assign(taught, { list, name });
  drawLessons();
  drawList();
}

const IS_TAUGHT = /^\s*\{[^]{0,200}?"(lessons|list)"/;

/** Takes a text of a file, where it is one of lessons or tests. Answers whether it was. */
function takeTaughtText(text) {
  if (!IS_TAUGHT.test(text.slice(0, 400))) return false;
  tryTaught(text, told => (told.lessons.length > 0 ? beginLesson(told.lessons[0].name) : openListed(0)));
  return true;
}

/** Takes what a text of lessons or tests has, and does something with it; or says why it isn't taken. */
function tryTaught(text, act) {
  try {
    const told = readTaught(text);
    takeTaught(told);
    act(told);
  } catch (fault) {
    if (!(fault instanceof Refusal)) throw fault;
    sayInSight(fault.message);
  }
}

/** What a page that was saved brings along. */
function takeSavedTaught() {
  const saved = query('meta[name=taught]')?.content;
  if (saved) tryTaught(saved, () => { playlist.saved = taughtNow(); });
}

/** What is saved with the page; empty where nothing was brought along. */
const taughtNow = () => (taught.lessons.length + taught.list.length > 0 ? JSON.stringify(taught) : '');
