"""Scrapy, SitemapSpider: pairs of a pattern and a method's name."""
# pattern: '/product/\\d+'
# pattern: '/category/'
from scrapy.spiders import SitemapSpider
class MySpider(SitemapSpider):
    sitemap_urls = ["https://www.example.com/sitemap.xml"]
    sitemap_rules = [(r"/product/\d+", "parse_product"), ("/category/", "parse_category")]
