"""Numbers and texts as Rust reads them."""
import re

# The white space that `str::trim` cuts; U+001C to U+001F are none.
WHITE = "\t\n\v\f\r \x85\xa0\u1680\u2000\u2001\u2002\u2003\u2004\u2005\u2006\u2007\u2008\u2009\u200a\u2028\u2029\u202f\u205f\u3000"
SIGNED = re.compile(r"[+-]?[0-9]+", re.A)
UNSIGNED = re.compile(r"\+?[0-9]+", re.A)


def utf8(data):
    """The text of these bytes, None where they are none."""
    try:
        return data.decode()
    except UnicodeDecodeError:
        return None


def signed(text, bits=64):
    """The number that a text spells, None where it spells none of so many bits."""
    number = int(text) if SIGNED.fullmatch(text) else None
    top = 1 << bits - 1
    return number if number is not None and -top <= number < top else None


def unsigned(text, bits=64):
    """The same of a number that is not negative."""
    number = int(text) if UNSIGNED.fullmatch(text) else None
    return number if number is not None and number < 1 << bits else None


def trimmed(text):
    return text.strip(WHITE)
