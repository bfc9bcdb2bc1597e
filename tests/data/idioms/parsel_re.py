"""parsel, usage: selectors with patterns."""
# pattern: '(\\w+)@\\w+'
from parsel import Selector
names = Selector(text=html).xpath("//a/@href").re(r"(\w+)@\w+")
