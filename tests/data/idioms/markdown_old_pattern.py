"""Python-Markdown, extensions before version 3: Pattern and SimpleTagPattern."""
# pattern: '^(.*?)(\\+\\+)(.*?)\\2(.*)$'
import markdown.inlinepatterns
INS = r"(\+\+)(.*?)\2"
tag = markdown.inlinepatterns.SimpleTagPattern(INS, "ins")
