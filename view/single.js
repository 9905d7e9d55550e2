'use strict';

// The page as one file, with what is shown in it: its scripts and styles stand in it, and its policy names their digests.

/** What the scripts of data give their names. */
const DATA = { 'texts.js': () => ({ EXAMPLES, SHOWS, LONGER }), 'module.js': () => ({ MODULE }), 'whole.js': () => ({ WHOLE }) };

/** A value as a text of JavaScript in which nothing ends a script. */
const literalOf = value => JSON.stringify(value).replaceAll('<', '\\u003c');

const dataScript = values => `'use strict';\n\n${Object.entries(values).map(([name, value]) => `const ${name} = ${literalOf(value)};\n`).join('')}`;

/** A text's digest, as a policy names it. */
async function digestOf(text) {
  const digest = await crypto.subtle.digest('SHA-256', new TextEncoder().encode(text));
  return `'sha256-${btoa(String.fromCharCode(...new Uint8Array(digest)))}'`;
}

const inAttribute = text => text.replaceAll('&', '&amp;').replaceAll('"', '&quot;').replaceAll('<', '&lt;');

/** What the address of what is shown tells: a test, or a run that was made elsewhere. */
const addressNow = () => (isOfTest() ? currentAddress() : encodeURIComponent(shown.line));

/** Replaces each of these places of a page by what stands there in one file. */
function inOneFile(page, place, textOf, tag) {
  return page.replace(place, (_, name) => `<${tag}>${textOf(name)}</${tag}>`);
}

/** The lessons and tests that were brought along, for the head of a page. */
const taughtPart = text => (text === '' ? '' : `<meta name="taught" content="${inAttribute(text)}">\n`);

/** The whole page as one text, which opens what this address tells, or the first test of the list, and brings along a text of lessons and tests. */
async function wholePage(address, brought = taughtNow()) {
  const whole = await openedJson(WHOLE), scriptText = name => whole.scripts[name] ?? dataScript(DATA[name]());
  const scripts = [...whole.page.matchAll(/<script src="([a-z]+\.js)">/g)].map(([, name]) => scriptText(name)), styles = Object.values(whole.styles);
  const [ofScripts, ofStyles] = await Promise.all([scripts, styles].map(async texts => (await Promise.all(texts.map(digestOf))).join(' ')));
  const head = whole.page.replace('script-src \'self\'', () => `script-src ${ofScripts}`).replace('style-src \'self\'', () => `style-src ${ofStyles}`)
    .replace('<title>', () => `<meta name="shown" content="${inAttribute(address)}">\n${taughtPart(brought)}<title>`);
  const styled = inOneFile(head, /<link rel="stylesheet" href="([a-z]+\.css)">/g, name => whole.styles[name], 'style');
  return inOneFile(styled, /<script src="([a-z]+\.js)"><\/script>/g, scriptText, 'script');
}

/** What a page that was saved has to open, where its address tells nothing. */
const savedAddress = () => query('meta[name=shown]')?.content ?? '';

/** Why the page can't be saved from here; null where it can. */
function whyNotSaved() {
  if (!window.DecompressionStream) return 'This browser can\'t unpack the page\'s parts. So this page can\'t be saved from here.';
  return window.crypto?.subtle ? null : 'The browser makes digests only for pages from https or from files. So this page can\'t be saved from here.';
}

/** Saves a page under a name, and says so, with `more` about it. */
async function saveWhole(name, makePage, more) {
  const why = whyNotSaved();
  if (why !== null) {
    putMessage(why);
    return;
  }
  saveText(name, await makePage(), 'text/html', more);
}

/** The page with what is shown; with a list of tests it is named by the first of these. */
function savePage() {
  playlist.saved = taughtNow();
  sayList();
  for (const { firstChild: said } of queryAll('.listed')) if (said) said.data = said.data.replace(UNSAVED, '');
  return saveWhole(taught.list.length > 1 ? listFile(taught.name ? '' : 'lecture') : fileName(pictureName(), '.html'), () => wholePage(addressNow()));
}

SAVES.page = savePage;
