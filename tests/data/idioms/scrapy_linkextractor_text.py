"""Scrapy, link extractors: a single pattern, by the class's full name."""
# pattern: '/item/\\d+'
from scrapy.linkextractors.lxmlhtml import LxmlLinkExtractor
links = LxmlLinkExtractor(r"/item/\d+", restrict_css=".list").extract_links(response)
