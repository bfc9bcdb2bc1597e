"""Scrapy, selectors: a Selector that is made by hand; the pattern is a constant."""
# pattern: '(\\d+)\\.html'
from scrapy.selector import Selector
NUMBER = r"(\d+)\.html"
found = Selector(text="<a>1.html</a>").css("a::text").re(NUMBER)
