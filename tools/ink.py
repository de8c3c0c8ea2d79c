"""What the pictures share: sizes in pixels, colours, words and the frame around them."""

SIDE = 400
MARGIN = 30
GAP = 50
WIDTH = 2 * (MARGIN + SIDE) + GAP
# left edges of the two columns
COLUMNS = (MARGIN, MARGIN + SIDE + GAP)

INK = '#1d2b3a'
FAINT = '#5b6875'
FONT = 'DejaVu Sans, Arial, Helvetica, sans-serif'


def number(value):
    """At most two decimals, none that aren't needed: the same text from every Python."""
    return ('%.2f' % value).rstrip('0').rstrip('.')


def grouped(value):
    return format(value, ',')


def escaped(words):
    return words.replace('&', '&amp;').replace('<', '&lt;').replace('>', '&gt;')


def text(x, y, words, size=13, colour=INK, more=''):
    return '<text x="%s" y="%s" font-size="%d" fill="%s"%s>%s</text>' % (number(x), number(y), size, colour, more, words)


def heading(name, counts, y=34):
    """The name at the left, the counts at the right."""
    return [text(MARGIN, y, escaped(name), 19, INK, ' font-weight="bold"'),
            text(WIDTH - MARGIN, y, counts, 13, FAINT, ' text-anchor="end"')]


def framed(title, height, lines):
    """The whole picture's text."""
    size = 'width="%d" height="%d" viewBox="0 0 %d %d"' % (WIDTH, height, WIDTH, height)
    first = ['<svg xmlns="http://www.w3.org/2000/svg" %s font-family="%s">' % (size, FONT),
             '<title>%s</title>' % escaped(title)]
    return '\n'.join(first + lines + ['</svg>', ''])
