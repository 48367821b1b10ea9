#!/usr/bin/env python3
"""Checks the folder that `make site` made: each link within it leads to a file, and to a place in it if it names one, and no page
fetches anything from elsewhere.

    tests/site.py FOLDER

The last line is 'N passed, M failed'."""
import pathlib
import re
import sys
from html.parser import HTMLParser
from urllib.parse import unquote, urlsplit

# what a page fetches by itself: scripts, styles, pictures
FETCHES = {'script': 'src', 'link': 'href', 'img': 'src', 'iframe': 'src', 'source': 'src', 'object': 'data'}


def places_of(fragment):
    """The places that a link may mean: rustdoc writes some escaped, and marks lines by their numbers."""
    return {fragment, unquote(fragment), re.sub(r'^(\d+)-\d+$', r'\1', fragment)}


class Page(HTMLParser):
    """The links of a page, what it fetches, and the places that links can name."""

    def __init__(self, file):
        super().__init__()
        self.links, self.fetched, self.places = set(), set(), {'', 'top'}
        self.feed(file.read_text(errors='replace'))

    def handle_starttag(self, tag, attrs):
        attrs = {name: value or '' for name, value in attrs}
        self.places |= {attrs[name] for name in ('id', 'name') if name in attrs}
        to = attrs.get(FETCHES.get(tag, 'href'))
        if to is None or attrs.get('rel') in ('canonical', 'search'):
            return
        self.links.add(to)
        if tag in FETCHES:
            self.fetched.add(to)


def main(words):
    if len(words) != 1:
        sys.exit(__doc__)
    folder = pathlib.Path(words[0]).resolve()
    pages = {file: Page(file) for file in sorted(folder.rglob('*.html'))}
    lost, elsewhere, count = set(), set(), 0
    for file, page in pages.items():
        name = file.relative_to(folder)
        for link in sorted(page.links):
            to = urlsplit(link)
            if to.scheme or to.netloc:
                elsewhere |= {f'{name}: {link}'} if link in page.fetched and to.scheme != 'data' else set()
                continue
            count += 1
            path = (folder / to.path.lstrip('/') if to.path.startswith('/') else file.parent / unquote(to.path)) if to.path else file
            path = (path / 'index.html' if path.is_dir() else path).resolve()
            if not path.is_file():
                lost.add(f'{name}: {link}')
            elif path in pages and not places_of(to.fragment) & pages[path].places:
                lost.add(f'{name}: {link}')
    for told, what in ((lost, 'links that lead nowhere'), (elsewhere, 'files that are fetched from elsewhere')):
        if told:
            print(f'FAILED: {what}', *(f'  {one}' for one in sorted(told)), sep='\n')
    if count < 1000:
        print('FAILED: the folder has few links')
    failed = bool(lost) + bool(elsewhere) + (count < 1000)
    print(f'{count} links in {len(pages)} pages', f'{3 - failed} passed, {failed} failed', sep='\n')
    return int(failed > 0)


if __name__ == '__main__':
    sys.exit(main(sys.argv[1:]))
