"""What page/tests/browse asks of a page in any browser, and counts."""
import pathlib
import sys

PAGE = pathlib.Path(__file__).resolve().parent.parent
TOP = PAGE.parent
sys.path.insert(0, str(PAGE / 'build'))

counts = {'passed': 0, 'failed': 0}
# The sizes of the window, and the one of them that is tried.
SIZES = [(1440, 900), (1280, 720), (1280, 600), (1024, 480), (390, 844), (720, 450)]
tried_at = []
# The widths at which nothing may be cut, and the looks of which a screenshot is left: each with its size and theme.
WIDTHS = [1400, 1100, 700, 400]
LOOKS = [('wide', 1400, 2000, 'light'), ('dark', 1400, 2000, 'dark'), ('narrow', 400, 2600, 'light'), ('narrow_dark', 400, 2600, 'dark')]
# What opens the windows of the lesson on them.
WINDOW = ['host cw 00:02.0 0x20 4 0xc000c000', 'host cw 00:02.0 0x1c 2 0x1010', 'host cw 00:02.0 4 2 3']
# The last reply, which is a button if one can ask why.
LAST = "[...document.querySelectorAll('#transcript button.reply')].at(-1)"
# The range that the bar of memory shows.
RANGE = "document.querySelector('[data-space=mem] .title span:nth-child(2)').textContent"
# Elements that reach past the right edge, outside those that scroll or draw themselves.
CUT = """[...document.querySelectorAll('body *')].filter(one => { const box = one.getBoundingClientRect();
  return box.width > 0 && box.right > document.documentElement.clientWidth + 0.5 && !one.closest('.text, svg, #last') && !(innerWidth > 960 && one.closest('#tree')); }).map(one => `${one.tagName} ${one.className} ${one.id}`)"""
# The least contrast of the texts of the page, as the browser paints them, and of the fill of regions with the page.
PAINTED = """(() => {
  const pen = Object.assign(document.createElement('canvas'), { width: 1, height: 1 }).getContext('2d', { willReadFrequently: true });
  const light = colour => { pen.clearRect(0, 0, 1, 1); pen.fillStyle = colour; pen.fillRect(0, 0, 1, 1);
    const [r, g, b, a] = pen.getImageData(0, 0, 1, 1).data;
    const [x, y, z] = [r, g, b].map(one => one / 255).map(one => (one <= 0.04045 ? one / 12.92 : ((one + 0.055) / 1.055) ** 2.4));
    return a === 255 ? 0.2126 * x + 0.7152 * y + 0.0722 * z : null; };
  const ratio = (a, b) => (Math.max(a, b) + 0.05) / (Math.min(a, b) + 0.05);
  const ground = one => { for (; one; one = one.parentElement) { const found = light(getComputedStyle(one).backgroundColor); if (found !== null) return found; } };
  const texts = [...document.querySelectorAll('body *:not(svg, svg *, script, style)')].filter(one => one.checkVisibility()
    && [...one.childNodes].some(node => node.nodeType === 3 && node.data.trim() !== '')).map(one => ratio(light(getComputedStyle(one).color), ground(one)));
  const fills = [...document.querySelectorAll('.fill')].map(one => ratio(light(getComputedStyle(one).fill), light(getComputedStyle(document.body).backgroundColor)));
  return [Math.min(...texts), Math.min(...fills)];
})()"""
# The registers whose bits are shown.
BITS = '#bits .of_bits'
# The stops of a cycle on its way.
STOPS = "[...document.querySelectorAll('#way li')].map(one => one.firstChild.textContent + [...one.children].map(each => each.textContent).join('; '))"
# What guests open, as the page draws it.
MAPS = "[...document.querySelectorAll('.joined')].map(one => one.getAttribute('aria-label'))"
# Whether the head of a part is in the window.
SEEN = "(() => { const b = document.getElementById('%s').getBoundingClientRect(); return b.top >= 0 && b.top < innerHeight - 60; })()"


def holds(name, good, found=''):
    counts['passed' if good else 'failed'] += 1
    if not good:
        print(f"FAILED{''.join(tried_at)}: {name}: {found}")


def equals(name, found, wanted):
    holds(name, type(found) is type(wanted) and found == wanted, found)


def begins(name, found, wanted):
    holds(name, found.startswith(wanted), found)


def ends(name, found, wanted):
    holds(name, found.endswith(wanted), found)


def contains(name, found, *parts):
    holds(name, all(part in found for part in parts), found)


def nothing_is_cut(browser, page, what, link, act=lambda: None):
    for width in WIDTHS:
        browser.open(f'{page}#{link}', width, 800)
        act()
        equals(f'nothing of {what} is cut at {width} pixels', browser.run(CUT), [])


def is_painted_well(browser, what):
    """Holds that small text, and regions if there are some, stand out from what is below them."""
    text, region = browser.run(PAINTED)
    holds(f'{what}: small text is painted with 4.5:1 or more', text >= 4.5, text)
    holds(f'{what}: regions are painted with 3:1 or more', region is None or region >= 3, region)


def at_each_size(browser, page, checks):
    for width, height in SIZES:
        tried_at[:] = [f' at {width} by {height}']
        for check in checks:
            check(browser, page, (width, height))
            browser.run('localStorage.clear()')
    tried_at.clear()


def lines_in(script):
    """The lines of a script, without its remarks."""
    return [line for line in script.read_text().splitlines() if line and not line.startswith('#')]


def answers(browser, name, line, reply):
    """Types a line, and holds that this is its reply."""
    browser.type_line(line)
    equals(name, browser.said_last('reply'), reply)


def set_up(primary=0):
    """The lines by which firmware sets up the main board."""
    writes = [('00:01', '0x10', '0x1000'), ('00:01', '0x14', '0xd0000000'), ('00:01', 4, 3), ('00:02', '0x18', hex(0x10100 + primary)), ('00:02', '0x1c', '0x3030'),
              ('00:02', '0x20', '0xd110d110'), ('00:02', '0x24', '0xd2f0d200'), ('00:02', 4, 3), ('01:00', '0x10', '0xd1100000'), ('01:00', '0x14', '0x3010'),
              ('01:00', 4, 3), ('01:01', '0x10', '0xd2000000'), ('01:01', 4, 2)]
    return [f'host cw {place}.0 {offset} 4 {value}' for place, offset, value in writes]
