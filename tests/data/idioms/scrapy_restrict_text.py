"""Scrapy, link extractors: restrict_text is a pattern for a link's text."""
# pattern: 'Read (more|on)'
from scrapy.linkextractors import LinkExtractor
more = LinkExtractor(restrict_text=r"Read (more|on)")
