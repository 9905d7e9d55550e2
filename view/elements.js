'use strict';

window.addEventListener('error', ({ message, filename }) => {
  document.getElementById('message').textContent = `A part of this page failed (${filename.split('/').at(-1)}: ${message}). “The answer as text” has all answers.`;
});

// Elements. Whatever an input holds becomes text, never markup.

/** Sets attributes. One that is set anew has the browser lay out and paint anew, so it is let be where it is the same. */
function setAll(element, attributes) {
  for (const [name, value] of Object.entries(attributes)) {
    if (element.getAttribute(name) !== String(value)) element.setAttribute(name, value);
  }
}

/** Puts a text into an element, where it isn't that already. */
function putText(element, text) {
  if (element.textContent !== text) element.textContent = text;
}

/** An element; attributes that are a text alone are its class. */
function make(namespace, tag, attributes, children) {
  const element = document.createElementNS(namespace, tag);
  setAll(element, typeof attributes === 'string' ? { class: attributes } : attributes);
  element.append(...children);
  return element;
}

const html = (tag, attributes, ...children) => make('http://www.w3.org/1999/xhtml', tag, attributes, children);
const svg = (tag, attributes, ...children) => make('http://www.w3.org/2000/svg', tag, attributes, children);
const byId = id => document.getElementById(id);
const testNow = () => byId('test').value;
const query = selector => document.querySelector(selector);
const queryAll = selector => document.querySelectorAll(selector);
const focused = () => document.activeElement;
const ROOT = document.documentElement;

/** Scrolls an element into sight, where it isn't there. */
const bringNear = element => element.scrollIntoView({ block: 'nearest' });

/** Gives the focus to what is there, without scrolling. */
const focusOn = element => element?.focus({ preventScroll: true });

/** An array of this length, by the place of each. */
const times = (length, made) => Array.from({ length }, (_, at) => made(at));

const fill = (element, ...children) => element.replaceChildren(...children);
const putClass = (element, name, is) => element.classList.toggle(name, is);
const boxOf = element => element.getBoundingClientRect();
const putMessage = text => { byId('message').textContent = text; };

/** Has an element do something at each event of a kind. */
const on = (element, ...more) => element.addEventListener(...more);

/** Has each of these do something when it is pressed, by its id. */
const onPress = acts => Object.entries(acts).forEach(([id, act]) => on(byId(id), 'click', act));

/** Puts texts into a list, an item for each. The items before the first that differs stay. */
function putItems(list, texts) {
  let same = 0;
  while (same < texts.length && list.children[same]?.textContent === texts[same]) same++;
  while (list.children.length > same) list.lastElementChild.remove();
  list.append(...texts.slice(same).map(text => html('li', {}, text)));
}

/** Makes an element's children these. What is equal to the one in its place stays, and the browser lets it be. */
function putChildren(element, children) {
  while (element.childNodes.length > children.length) element.lastChild.remove();
  children.forEach((child, at) => {
    const there = element.childNodes[at];
    if (!there) element.append(child);
    else if (!there.isEqualNode(child)) there.replaceWith(child);
  });
}

/** Switches a button off or on. It keeps the focus, so what it does has to look whether it is off; but no Tab leads to one that is off. */
const putOff = (button, isOff) => setAll(button, { 'aria-disabled': isOff, tabindex: isOff ? -1 : 0 });

/** Goes by arrow keys from button to button, which are one stop of Tab. */
function goAmong(event, buttons) {
  const at = buttons.indexOf(event.target), way = { ArrowRight: 1, ArrowDown: 1, ArrowLeft: -1, ArrowUp: -1 }[event.key];
  if (at < 0 || !way || event.altKey) return;
  event.preventDefault();
  event.stopPropagation();
  const next = buttons.at((at + way) % buttons.length);
  for (const each of buttons) each.tabIndex = each === next ? 0 : -1;
  next.focus();
}

/** An element that is drawn anew only where what it shows isn't what it showed. */
class Part {
  constructor(element, draw) {
    Object.assign(this, { element, draw, key: null });
  }

  show(...shownNow) {
    const key = JSON.stringify(shownNow);
    if (key === this.key) return;
    this.key = key;
    putChildren(this.element, this.draw(...shownNow));
  }
}
