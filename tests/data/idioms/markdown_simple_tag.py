"""Python-Markdown, extensions: a simple processor that comes with it."""
# pattern: '()==(.*?)=='
from markdown.extensions import Extension
from markdown.inlinepatterns import SimpleTagInlineProcessor
class MarkExtension(Extension):
    def extendMarkdown(self, md):
        md.inlinePatterns.register(SimpleTagInlineProcessor(r"()==(.*?)==", "mark"), "mark", 175)
