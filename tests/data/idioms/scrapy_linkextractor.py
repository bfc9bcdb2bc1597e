"""Scrapy, link extractors: rules of a CrawlSpider with patterns that allow and deny."""
# pattern: 'category\\.php'
# pattern: 'subsection\\.php\\?.*'
from scrapy.linkextractors import LinkExtractor
from scrapy.spiders import CrawlSpider, Rule
class MySpider(CrawlSpider):
    name = "example.com"
    rules = (Rule(LinkExtractor(allow=(r"category\.php",), deny=(r"subsection\.php\?.*",)), follow=True),)
