"""Python-Markdown, extensions: a preprocessor that reads line by line."""
# pattern: '^NO\\s+RENDER$'
import re
from markdown.preprocessors import Preprocessor
class NoRender(Preprocessor):
    def run(self, lines):
        return [it for it in lines if not re.match("^NO" + r"\s+RENDER$", it)]
