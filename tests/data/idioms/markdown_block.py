"""Python-Markdown, extensions: a block processor keeps its patterns as attributes."""
# pattern: '^ *!{3,} *\\n'
# pattern: '\\n *!{3,}\\s*$'
import re
from markdown.blockprocessors import BlockProcessor
class BoxBlockProcessor(BlockProcessor):
    RE_FENCE_START = r"^ *!{3,} *\n"
    RE_FENCE_END = r"\n *!{3,}\s*$"
    def test(self, parent, block):
        return re.match(self.RE_FENCE_START, block)
    def run(self, parent, blocks):
        return re.search(self.RE_FENCE_END, blocks[0])
