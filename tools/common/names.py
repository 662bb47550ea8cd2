"""The names of tools, programs and examples: in the repository, and where they are installed."""
import re

from . import places

# a path in the repository, and where it is installed
INSTALLED = (
    (r"(?:\.\./)*tools/wireshark/bier\.lua", "/usr/lib/x86_64-linux-gnu/wireshark/plugins/bier.lua"),
    (r"(?:\.\./)*tools/independent/", "/usr/share/mastdamson/tools/independent/"),
    (r"(?:\.\./)*tools/([a-z-]+)(?![a-z/-])", r"mastdamson-\1"),
    (r"\./bier_domain of the repository", "the one that is installed"),
    (r"(?<![\w/])\.(?:\./\.\.)?/bier_domain\b", "bier_domain"),
    (r"(?<![\w/])examples/", "/usr/share/doc/mastdamson/examples/"),
)


def installed(text):
    """A text that names tools and examples by their paths in the repository, with their installed names."""
    for pattern, name in INSTALLED:
        text = re.sub(pattern, name, text)
    return text


def as_called(text):
    """The same as the user has it: unchanged in the repository."""
    return installed(text) if places.IS_INSTALLED else text
