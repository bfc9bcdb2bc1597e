"""Scrapy, selectors: re and re_first of what a selector finds."""
# pattern: 'Name:\\s*(.*)'
# pattern: '\\d+ pages'
import scrapy
class QuotesSpider(scrapy.Spider):
    def parse(self, response):
        yield response.xpath("//a/text()").re(r"Name:\s*(.*)"), response.css("p::text").re_first(r"\d+ pages")
