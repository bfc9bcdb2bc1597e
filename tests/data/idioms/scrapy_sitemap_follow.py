"""Scrapy, SitemapSpider: which sitemaps are followed."""
# pattern: '/sitemap_shops?'
import scrapy.spiders
class MySpider(scrapy.spiders.SitemapSpider):
    sitemap_follow = [r"/sitemap_shops?"]
