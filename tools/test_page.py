"""The page of `formula.py diff --html` in a real browser, without a screen:
what its marks hold, that it fits a phone and a desktop, what it looks like.

KEEP_PICTURES=DIR keeps the pictures."""

import html.parser
import os
import re
import shutil
import struct
import subprocess
import tempfile
import unittest

import testing

BROWSERS = 'chromium', 'chromium-browser', 'google-chrome', 'chrome'
BROWSER = next(filter(None, map(shutil.which, BROWSERS)), None)
PHONE, DESKTOP = (390, 844), (1280, 900)

FIRST = '(p - p0) * gain[i].k < limit && !fault(x, y)'
SECOND = ('(p - p0) * gain[i].k < limit + margin && !fault(x, z)'
          ' || mode == 3 ) && late')

# Asked of the page by the browser, and left in it for us to read.
QUESTION = '''<script>
document.body.dataset.wide =
    document.documentElement.scrollWidth > innerWidth ? 'yes' : 'no';
document.body.dataset.columns =
    getComputedStyle(document.querySelector('.sides')).gridTemplateColumns
        .split(' ').length;
document.body.dataset.dead = [...document.querySelectorAll('a')].filter(
    a => !document.getElementById(a.hash.slice(1))).length;
document.body.dataset.loaded = performance.getEntriesByType('resource').length;
</script></body>'''


class Page(html.parser.HTMLParser):
    """The marks of a page by their side, and what its body was asked."""

    def __init__(self, text):
        super().__init__()
        self.marks, self.unread, self.body = [], '', {}
        self.inside = []
        self.feed(text)

    def handle_starttag(self, tag, attributes):
        attributes = dict(attributes)
        sort = attributes.get('class', '')
        if tag == 'body':
            self.body = attributes
        if tag == 'mark':
            self.marks.append([sort, ''])
        self.inside.append((tag, sort))

    def handle_endtag(self, tag):
        while self.inside and self.inside.pop()[0] != tag:
            pass

    def handle_data(self, data):
        tags = [tag for tag, _ in self.inside]
        sorts = [sort for _, sort in self.inside]
        if 'mark' in tags and 'number' not in sorts:
            self.marks[-1][1] += data
        if 'unread' in sorts and 'label' not in sorts:
            self.unread += data


class PageCase(testing.Case):
    def page(self, *arguments):
        room = tempfile.TemporaryDirectory()
        self.addCleanup(room.cleanup)
        path = os.path.join(room.name, 'page.html')
        self.assert_prints(f'{path}: 1 pair of formulas\n',
                           'diff', '--html', path, *arguments)
        with open(path, encoding='utf-8') as file:
            return path, file.read()


@testing.needs('batch', 'compare')
class Written(PageCase):
    def test_needs_nothing_else(self):
        _, text = self.page(FIRST, SECOND)
        self.assertNotRegex(text, r'(?i)<script|<link|<img|@import|url\(|http')

    def test_text_is_escaped(self):
        _, text = self.page('a < "<b>&"', 'a > "<b>&"')
        self.assertIn('&lt;b&gt;&amp;', text)
        self.assertNotIn('<b>&"', text)

    def test_marks(self):
        _, text = self.page(FIRST, SECOND)
        page = Page(text)
        self.assertEqual(page.marks, [
            ['first', 'limit'], ['first', 'y'], ['second', 'limit + margin'],
            ['second', 'z'], ['second', '|| mode == 3']])
        self.assertEqual(page.unread, ') && late')

    def test_ids_are_there_once(self):
        _, text = self.page(FIRST, SECOND)
        ids = re.findall(' id="([^"]*)"', text)
        self.assertEqual(len(ids), len(set(ids)))

    def test_a_folder_that_is_not_there(self):
        self.assert_fails(1, "can't write /no/such/page.html",
                          'diff', '--html', '/no/such/page.html', 'a', 'b')


@testing.needs('batch', 'compare')
@unittest.skipUnless(BROWSER, 'no browser: apt-get install chromium')
class Opened(PageCase):
    def browse(self, path, size, *words):
        profile = tempfile.mkdtemp()
        self.addCleanup(shutil.rmtree, profile, ignore_errors=True)
        return subprocess.run(
            [BROWSER, '--headless', '--no-sandbox', '--disable-gpu',
             '--hide-scrollbars', f'--user-data-dir={profile}',
             f'--window-size={size[0]},{size[1]}', *words,
             'file://' + path], capture_output=True, timeout=120).stdout

    def dom(self, path, text, size):
        with open(path, 'w', encoding='utf-8') as file:
            file.write(text.replace('</body>', QUESTION))
        return Page(self.browse(path, size, '--dump-dom').decode('utf-8'))

    def picture(self, path, size, name):
        folder = os.environ.get('KEEP_PICTURES') or os.path.dirname(path)
        picture = os.path.join(folder, name + '.png')
        self.browse(path, size, f'--screenshot={picture}')
        with open(picture, 'rb') as file:
            head = file.read(24)
        self.assertEqual(head[:8], b'\x89PNG\r\n\x1a\n')
        return struct.unpack('>II', head[16:24])

    def test_in_a_browser(self):
        for name, size, columns in (('phone', PHONE, '1'),
                                    ('desktop', DESKTOP, '2')):
            with self.subTest(name):
                path, text = self.page(FIRST, SECOND)
                page = self.dom(path, text, size)
                self.assertEqual(page.marks, Page(text).marks)
                self.assertEqual(page.body['data-wide'], 'no')
                self.assertEqual(page.body['data-columns'], columns)
                self.assertEqual(page.body['data-dead'], '0')
                self.assertEqual(page.body['data-loaded'], '0')
                self.assertEqual(self.picture(path, size, name), size)


if __name__ == '__main__':
    unittest.main()
