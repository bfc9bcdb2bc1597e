"""Scrapy, item loaders: the argument re of add_xpath and add_css."""
# pattern: 'the price is (.*)'
from scrapy.loader import ItemLoader
loader = ItemLoader(item=Product(), response=response)
loader.add_css("price", "p#price", re="the price is (.*)")
