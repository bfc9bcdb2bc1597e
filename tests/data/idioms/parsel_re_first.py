"""parsel, usage: the first match, with a default."""
# pattern: '[A-Z]\\w+'
import parsel
name = parsel.Selector(html).css("a::text").re_first(r"[A-Z]\w+", default="")
