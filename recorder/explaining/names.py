"""Names as text: of bytes that are no UTF-8, and of what would steer a terminal, `\\x1b` is printed."""
import os


def text_of(name):
    """Bytes as text; what is no UTF-8 becomes \\xNN."""
    return name.decode('utf-8', 'backslashreplace')


def shown(text):
    """Text that is safe to print: each character that is not printable becomes \\xNN, byte by byte."""
    if text.isprintable():
        return text
    return ''.join(c if c.isprintable() else
                   ''.join(f'\\x{byte:02x}' for byte in c.encode('utf-8', 'surrogatepass')) for c in text)


def short_path(path):
    """A path from the current folder on, where it is in that."""
    inside = os.path.relpath(path) if os.path.isabs(path) else path
    return path if inside.startswith('..') else inside


def source(file, line):
    return f'{short_path(file)}:{line}'
