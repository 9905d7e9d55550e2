'use strict';

// What has to stay in sight: nothing that gets the focus may lie under the bar by which one steps.

const CLEAR = 8; // pixels beside the bar

/** Keeps room beside the bar, at the edge of the window where it stands still, when the browser scrolls to something. */
function keepClear() {
  const bar = byId('stepper'), isSticky = getComputedStyle(bar).position === 'sticky' && bar.offsetHeight > 0, room = isSticky ? `${bar.offsetHeight + CLEAR}px` : '0px';
  const isBelow = isStepperBelow() && drive.isOn, { style } = ROOT, told = byId('lesson');
  const above = getComputedStyle(told).position === 'sticky' ? `${told.offsetHeight + CLEAR}px` : '0px';
  style.scrollPaddingTop = isBelow ? above : room;
  style.scrollPaddingBottom = isBelow ? room : '0px';
  byId('names').style.top = isSticky && !isBelow ? `${boxOf(bar).height / zoomOfPicture()}px` : '0px';
}

/** Brings a run into sight beside the bar: the machine and the picture, or of high ones memory and the picture. */
function seeRun() {
  const high = byId('stepper').offsetHeight + CLEAR, edge = isStepperBelow() ? CLEAR : high;
  const [{ bottom }, ...parts] = ['#frame', '#machines', '#machines .below'].map(name => boxOf(query(name)));
  const { top } = parts.find(part => bottom - part.top <= innerHeight - high) ?? parts[1];
  if (top < edge || bottom > innerHeight - high + edge) scrollBy(0, top - edge);
}

for (const id of ['stepper', 'lesson']) new ResizeObserver(keepClear).observe(byId(id));

/** A fold of the bar closes when one presses elsewhere, starts a lesson, or presses Escape. */
function closeFold({ target, key }) {
  const open = query('#folds [open]'), stays = key ? key !== 'Escape' : open?.contains(target) && !target.closest('[data-lesson]');
  if (!open || stays) return;
  if (open.contains(focused())) open.firstElementChild.focus();
  open.open = false;
}

for (const kind of ['click', 'keydown']) on(document, kind, closeFold);
