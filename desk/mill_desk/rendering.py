"""Fills the templates: autoescape is on, and a name that isn't set is an error."""

from functools import cache
from pathlib import Path
from typing import Any

from mill_desk.trouble import Exit, Trouble

TEMPLATES = Path(__file__).resolve().parents[1] / 'templates'
NEEDED = 'python3-jinja2 is needed for pages: sudo apt-get install -y python3-jinja2'


def is_installed() -> bool:
    """Whether pages can be made here."""
    try:
        environment()
    except Trouble:
        return False
    return True


@cache
def environment() -> Any:
    """The templates, with the style and the scripts that they hold inside."""
    try:
        import jinja2
        from markupsafe import Markup
    except ImportError:
        raise Trouble(Exit.NO_PROGRAM, NEEDED) from None
    made = jinja2.Environment(loader=jinja2.FileSystemLoader(TEMPLATES), autoescape=True,
                              undefined=jinja2.StrictUndefined, trim_blocks=True,
                              lstrip_blocks=True)
    made.globals['inline'] = lambda name: Markup((TEMPLATES / name).read_text('utf-8'))
    return made


def render(name: str, **values: object) -> str:
    """The text of a template with these values; what no text can hold, as of file names, is `?`."""
    text = str(environment().get_template(name).render(**values))
    return text.encode('utf-8', 'replace').decode()
