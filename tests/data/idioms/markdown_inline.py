"""Python-Markdown, extensions: an inline processor of one's own, registered with its pattern."""
# pattern: '--(.*?)--'
import xml.etree.ElementTree as etree
from markdown.extensions import Extension
from markdown.inlinepatterns import InlineProcessor
class DelInlineProcessor(InlineProcessor):
    def handleMatch(self, m, data):
        el = etree.Element("del")
        el.text = m.group(1)
        return el, m.start(0), m.end(0)
class DelExtension(Extension):
    def extendMarkdown(self, md):
        DEL_PATTERN = r"--(.*?)--"
        md.inlinePatterns.register(DelInlineProcessor(DEL_PATTERN, md), "del", 175)
