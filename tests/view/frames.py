"""From a click to the next frame, as the browser itself sees it: a real press of a mouse's button, by the DevTools protocol.

Three times are taken of each click, without a trace, which would cost time itself:

- the making: the processor time of script, style and layout, from when the button goes up (what the choice does is asked for while it is down);
- the work: that of all tasks of the page's thread, which has paint and the handing over of the frame beside these;
- the clock, from the event's own time stamp to the first task after the frame was handed over. In it are also the waits: for a free
  processor, and for the screen's next picture, of which there is one in 16.7 ms."""
import json
import statistics

# Promises: a frame was handed over, since a message that is posted before it is painted comes after that; and it is some time ago.
HANDED_OVER = "new Promise(done => requestAnimationFrame(() => { const { port1, port2 } = new MessageChannel(); port1.onmessage = %s; port2.postMessage(0); }))"
AT_REST = HANDED_OVER % "() => setTimeout(done, %d)"
NEXT_CLICK = ("window.clicked = new Promise(found => addEventListener('click', ({ timeStamp }) => found(%s), { capture: true, once: true })); true"
              % (HANDED_OVER % "() => done(performance.now() - timeStamp)"))
PLACE = """(found => {
  const button = document.querySelector(found);
  if (button.getBoundingClientRect().bottom > innerHeight) button.scrollIntoView({ block: 'center' });
  const { x, y, width, height } = button.getBoundingClientRect();
  return [x + width / 2, y + height / 2];
})(%s)"""
PAUSE, LONG_PAUSE = 40, 250  # milliseconds after the button went down, and after a click; what the page does later is done then


def spent_so_far(window):
    """The processor time of the page's making and of all its tasks, in milliseconds, without what it costs to ask."""
    metrics = {each["name"]: 1000 * each["value"] for each in window.call("Performance.getMetrics")["metrics"]}
    making = metrics["ScriptDuration"] + metrics["RecalcStyleDuration"] + metrics["LayoutDuration"]
    return making, metrics["TaskDuration"] - metrics["DevToolsCommandDuration"]


def click_costs(window, selector):
    """What a click on an element costs up to the next frame, in milliseconds: the making, the work, and the clock."""
    x, y = window.value(PLACE % json.dumps(selector))
    mouse = {"x": x, "y": y, "button": "left", "clickCount": 1}
    window.value(AT_REST % PAUSE)
    window.call("Input.dispatchMouseEvent", type="mousePressed", **mouse)
    window.value(AT_REST % PAUSE)
    window.value(NEXT_CLICK)
    before = spent_so_far(window)
    window.call("Input.dispatchMouseEvent", type="mouseReleased", **mouse)
    clock = window.value("clicked")
    making, work = [now - then for now, then in zip(spent_so_far(window), before)]
    window.value(AT_REST % LONG_PAUSE)
    return making, work, clock


class Costs:
    """What some clicks cost: of each time the median and the worst."""

    def __init__(self, costs):
        self.making, self.work, self.clock = [(statistics.median(times), max(times)) for times in zip(*costs)]

    def __str__(self):
        return "%.1f ms of script, style and layout (%.1f at most), %.1f of work in all (%.1f), %.1f by the clock (%.1f)" % (*self.making, *self.work, *self.clock)
